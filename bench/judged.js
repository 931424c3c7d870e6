// Reads a line at a time, judges the bundle that each puts by a JSON Schema with Ajv, and answers: what judged.py measures beside formd.
//     node judged.js SCHEMA < lines
const fs = require("fs");
const readline = require("readline");
const Ajv = require("ajv");

const schema = JSON.parse(fs.readFileSync(process.argv[2], "utf8"));
const holds = new Ajv({ allErrors: false, format: false }).compile(schema);

readline.createInterface({ input: process.stdin }).on("line", (line) => {
  const command = JSON.parse(line);
  if (!holds(command.bundle)) {
    throw new Error("the lines are meant to be taken: " + JSON.stringify(holds.errors));
  }
  process.stdout.write(JSON.stringify({ ok: command.do }) + "\n");
});
