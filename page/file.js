// Database files and certificates: which are open, what is wrong with those that aren't, and records read by slices. A header is tested as `dobutsu look`
// tests it, and the length too; of a file that isn't large the digest as well.
const Files = (() => {
  "use strict";
  const Core = DobutsuCore;
  const MOST_KEPT = 200000, MOST_TESTED = 64 << 20, DIGEST = 32, SEEN = 20;

  class Table {
    constructor(file, header, isTested) {
      const { set, profile, classes, first } = header;
      Object.assign(this, {
        file, name: file.name, key: set.join("") + profile, pieces: set, set: set.join(""), profile, count: classes, start: first, kept: new Map(), isTested,
        isBroken: false,
      });
    }
    // Some bytes at a place of the file, which is lost where it was cut, changed or taken away since it was opened.
    async bytes(at, length) {
      const found = await this.file.slice(at, at + length).arrayBuffer().catch(() => null);
      if (!found || found.byteLength !== length) throw new Core.Fault("lost");
      return new Uint8Array(found);
    }
    // The two bytes of a class.
    async record(number) {
      let found = this.kept.get(number);
      if (!found) {
        found = await this.bytes(this.start + 2 * number, 2);
        if (this.kept.size > MOST_KEPT) this.kept.clear();
        this.kept.set(number, found);
      }
      return found;
    }
    // The records of some classes from that one on, without keeping them.
    async records(first, count) {
      return new Uint16Array((await this.bytes(this.start + 2 * first, 2 * count)).buffer); // the lower byte first, as in each browser's machine
    }
  }

  const tables = new Map(); // the open ones, by set and profile
  let work = null; // { name, claim, part, wait, at, stop } of the file that is opened; of a certificate what it claims, the `part` that was checked `at` then, about
  // how long the rest takes where that is known, and what stops it
  let queue = Promise.resolve(); // files that are given while others are opened wait for them
  let refused = []; // { name, fault } of the files that were given last and aren't open
  let closed = ""; // the name of the file that was closed since then

  // Whether the digest was tested: not of a large file, nor where the browser has no SHA-256 for a page of a file. A wrong one is E20.
  async function testDigest(file) {
    if (file.size > MOST_TESTED || !globalThis.crypto?.subtle) return false;
    const bytes = new Uint8Array(await file.arrayBuffer()), end = bytes.length - DIGEST;
    const digest = new Uint8Array(await crypto.subtle.digest("SHA-256", bytes.subarray(0, end)));
    if (digest.some((byte, i) => byte !== bytes[end + i])) throw new Core.Fault("E20 Digest");
    return true;
  }

  // Opens a table, or a certificate: `tell` is called as the check of one goes on.
  async function open(file, engine, tell) {
    const head = new Uint8Array(await file.slice(0, Certificates.HEAD).arrayBuffer());
    if (Certificates.isOne(head)) {
      work.claim = Certificates.claimIn(head, engine);
      const note = (part, wait = null) => { Object.assign(work, { part, wait, at: performance.now() }); tell(work); };
      return Certificates.open(file, engine, note, (stop) => { work.stop = stop; note(0); });
    }
    const header = engine.readHeader(new Uint8Array(await file.slice(0, 21).arrayBuffer()), file.size);
    if (!engine.isProved && header.classes !== Core.countClasses(header.profile, header.set)) throw new Core.Fault("E18 ClassCount");
    const whole = header.first + 2 * header.classes + DIGEST;
    if (file.size < whole) throw new Core.Fault("E15 Truncated");
    if (file.size > whole) throw new Core.Fault("E19 Trailing");
    return new Table(file, header, await testDigest(file));
  }

  // Opens those files that are whole, a later one of the same set and rules in place of an earlier; gives the last that was opened. `tell` is called with
  // the work on each { name, part, stop }.
  async function openEach(files, engine, tell) {
    let last = null;
    refused = [];
    closed = "";
    for (const file of files) {
      work = { name: file.name, claim: null, part: null, stop: null };
      tell(work);
      await new Promise((done) => setTimeout(done, SEEN)); // so that this is seen while classes are counted
      try {
        last = await open(file, engine, tell);
        tables.delete(last.key);
        tables.set(last.key, last);
      } catch (fault) {
        if (fault.fault !== "stopped") refused.push({ name: file.name, fault });
      }
    }
    work = null;
    return last;
  }
  function openAll(files, engine, tell) {
    const opened = queue.then(() => openEach(files, engine, tell));
    queue = opened.catch(() => { work = null; });
    return opened;
  }

  // The table of a position's set by those rules, else the certificate.
  const tableFor = (profile, position) => {
    const key = Core.setOf(position).join("") + profile;
    return tables.get(key) || tables.get(`${key}.cert`) || null;
  };
  const all = () => [...tables.values()];

  function close(table) {
    tables.delete(table.key);
    closed = table.name;
  }

  return { openAll, close, tableFor, all, withRecords: () => all().filter((it) => !it.isCertificate), refused: () => refused, closed: () => closed, last: () => all().pop() || null, work: () => work };
})();
