// What a page waits for, held back and given at moments that a draw chooses: timers, the bytes of files, digests, and the answers of workers. So the draw
// alone says what the page does and in which order. Put into the page by lasting.py.
globalThis.Held = class {
  #draw;
  #real = {
    setTimeout, clearTimeout, setInterval, clearInterval, Worker, random: Math.random, now: performance.now, bytes: Blob.prototype.arrayBuffer,
    digest: SubtleCrypto.prototype.digest,
  };
  #timers = new Map(); // { act, at, every } by number
  #answers = []; // calls that give one each
  #time = 0; // milliseconds
  #last = 1e9; // number of a timer, greater than the browser's own
  #looks = 0; // at the clock
  #channel = new MessageChannel();

  // Holds from now on; `draw` gives numbers below one for what comes when, `random` those that the page draws itself.
  constructor(draw, random) {
    const held = this, timer = (isEvery) => (act, wait = 0) => held.#begin(act, wait, isEvery);
    const end = (number) => held.#timers.delete(number) || held.#real.clearTimeout.call(globalThis, number);
    const later = (call) => function (...about) { return held.#later(call.apply(this, about)); };
    this.#draw = draw;
    Object.assign(globalThis, { setTimeout: timer(false), setInterval: timer(true), clearTimeout: end, clearInterval: end, Worker: this.#worker() });
    Blob.prototype.arrayBuffer = later(this.#real.bytes);
    SubtleCrypto.prototype.digest = later(this.#real.digest);
    Math.random = random;
    performance.now = () => this.#time + ++this.#looks; // who counts for long sees that time goes by
    Object.defineProperty(navigator, "clipboard", { value: { writeText: async () => {} }, configurable: true });
  }

  #begin(act, wait, isEvery) {
    this.#timers.set(++this.#last, { act, at: this.#time + Math.max(0, wait), every: isEvery ? Math.max(1, wait) : 0 });
    return this.#last;
  }
  #later(real) {
    real.catch(() => {}); // whoever waits is told
    return new Promise((done, fail) => { this.#answers.push(() => real.then(done, fail)); });
  }
  // What the page's worker says of a file in the end.
  #examined(address, about) {
    const { Worker } = this.#real, worker = new Worker(address), told = new Promise((done) => {
      worker.onmessage = ({ data }) => { if (data.part === undefined) done(data); };
      worker.onerror = ({ message }) => done({ message });
    });
    worker.postMessage(about);
    return told.finally(() => worker.terminate());
  }
  // A worker that tells nothing of its way, and its end when that is given. Of a file that one has examined another says the same, without doing it again.
  #worker() {
    const held = this, told = new Map();
    return class {
      constructor(address) { this.address = address; }
      postMessage(about) {
        const { name } = about.file;
        if (!told.has(name)) told.set(name, held.#examined(this.address, about));
        this.answer = async () => this.onmessage({ data: structuredClone(await told.get(name)) });
        held.#answers.push(this.answer);
      }
      terminate() { held.#answers = held.#answers.filter((answer) => answer !== this.answer); }
    };
  }

  // Lets the page do what it can without what is held.
  breathe() {
    return new Promise((done) => {
      this.#channel.port1.onmessage = done;
      this.#channel.port2.postMessage(0);
    });
  }
  // Gives so many of the answers that are held, in an order that is drawn.
  async give(most = Infinity) {
    for (let i = 0; i < most && this.#answers.length; i++) {
      const [answer] = this.#answers.splice(Math.floor(this.#draw() * this.#answers.length), 1);
      await answer();
      await this.breathe();
    }
  }
  // Lets so many milliseconds go by.
  async pass(wait) {
    const until = this.#time + wait;
    for (;;) {
      const [number, due] = [...this.#timers].reduce((first, it) => (it[1].at < first[1].at ? it : first), [0, { at: Infinity }]);
      if (due.at > until) break;
      this.#time = due.at;
      if (due.every) due.at += due.every;
      else this.#timers.delete(number);
      due.act();
      await this.breathe();
    }
    this.#time = until;
  }
  // Gives all answers, and those that come soon behind them.
  async settle(soon = 30) {
    do {
      await this.give();
      await this.pass(soon);
    } while (this.#answers.length);
  }
  // Holds nothing any more. Before that all is given that the page waits for: it has to come to an end.
  async end() {
    for (let rounds = 0; this.#answers.length || this.#timers.size; rounds++) {
      if (rounds > 1000) throw new Error(`${this.#timers.size} timers and ${this.#answers.length} answers come to no end`);
      await this.settle(1000);
    }
    const { random, now, bytes, digest, ...calls } = this.#real;
    Object.assign(globalThis, calls);
    Blob.prototype.arrayBuffer = bytes;
    SubtleCrypto.prototype.digest = digest;
    Math.random = random;
    delete performance.now;
    delete navigator.clipboard;
  }
};
