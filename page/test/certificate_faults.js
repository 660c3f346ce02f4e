// What the page's own reader and checker say of certificates: each line of standard input has a file's bytes in hexadecimal, a tab, and the fault that
// docs/FORMAT.md gives it, or nothing where it proves its claim. Run by tests/certificates.sh.
"use strict";
const path = require("path");
const page = path.join(__dirname, "..");
global.DobutsuCore = require(path.join(page, "core.js"));
const Certificates = require(path.join(page, "certificate.js"));

async function faultOf(bytes) {
  try {
    await Certificates.check(await Certificates.read(bytes), () => {});
    return "";
  } catch (fault) {
    return fault.fault || String(fault);
  }
}

(async () => {
  const lines = require("fs").readFileSync(0, "utf8").split("\n").filter((line) => line), wrong = [];
  for (const line of lines) {
    const [hex, wanted] = line.split("\t"), found = await faultOf(Uint8Array.from(Buffer.from(hex, "hex")));
    if (found !== wanted) wrong.push(`${hex}: ${found || "accepted"}, wanted ${wanted || "accepted"}`);
  }
  for (const line of wrong.slice(0, 10)) console.log(line);
  console.log(`${lines.length} files, ${wrong.length} wrong`);
  process.exit(wrong.length ? 1 : 0);
})();
