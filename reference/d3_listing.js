// The time of the whole way in JavaScript, from a sheet's bytes to the text of its listing as one string, with d3's hierarchy and tree:
// reads the sheets of `bench_listing sheets` from the folder that is named, and prints for each its shape and the nanoseconds, the
// least of many batches. Sheet and tree are not checked. The text differs from ours where d3's places have fractions, which is no
// matter for the time; all but the places must agree.
const { strictEqual } = require("assert");
const { hierarchy, tree } = require("d3-hierarchy");
const { readdirSync, readFileSync } = require("fs");
const { basename, join } = require("path");
const { least } = require("./least.js");

const NONE = 65535;
const BLOCK_BYTES = 512;
const BLOCK_ROWS = 50;
const ROW_BYTES = 10;

function read(file) {
  const bytes = new DataView(file.buffer, file.byteOffset, file.length);
  const nodes = Array.from({ length: bytes.getUint16(4, true) }, (_, number) => {
    const row = (1 + Math.floor(number / BLOCK_ROWS)) * BLOCK_BYTES + 4 + ROW_BYTES * (number % BLOCK_ROWS);
    return {
      number,
      firstChild: bytes.getUint16(row, true),
      nextSibling: bytes.getUint16(row + 2, true),
      tape: bytes.getUint32(row + 4, true),
      halfWidth: bytes.getUint16(row + 8, true),
      children: [],
    };
  });
  for (const { firstChild, children } of nodes) {
    for (let child = firstChild; child !== NONE; child = nodes[child].nextSibling) children.push(nodes[child]);
  }
  return { separation: bytes.getUint16(6, true), nodes };
}

function listing(file) {
  const { separation, nodes } = read(file);
  // d3 names the two nodes in either order.
  const needed = (a, b) => separation + a.data.halfWidth + b.data.halfWidth;
  const root = tree().nodeSize([1, 1]).separation(needed)(hierarchy(nodes[0]));
  const lines = new Array(1 + nodes.length);
  let least = 0;
  let greatest = 0;
  root.eachBefore(({ data, depth, x }) => {
    if (x < least) least = x;
    if (x > greatest) greatest = x;
    lines[1 + data.number] = `${data.number} ${depth} ${x} ${data.tape}\n`;
  });
  lines[0] = `sheet ${nodes.length} ${root.height + 1} ${separation} ${least} ${greatest}\n`;
  return lines.join("");
}

function withoutPlaces(text) {
  return text.replace(/^(sheet \d+ \d+ \d+) .*/, "$1").replace(/^(\d+ \d+) \S+/gm, "$1");
}

const folder = process.argv[2];
for (const name of readdirSync(folder).filter((name) => name.endsWith(".sheet"))) {
  const shape = basename(name, ".sheet");
  const file = readFileSync(join(folder, name));
  const ours = readFileSync(join(folder, `${shape}.listing`), "latin1");
  strictEqual(withoutPlaces(listing(file)), withoutPlaces(ours));
  console.log(shape, least(() => listing(file)));
}
