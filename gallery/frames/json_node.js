// JSON.parse of Node.js. It gets a string, so the bytes are decoded before, and refused where they aren't UTF-8.
const readline = require("readline");
const decoder = new TextDecoder("utf-8", { fatal: true, ignoreBOM: true });

readline.createInterface({ input: process.stdin }).on("line", (line) => {
  try {
    JSON.parse(decoder.decode(Buffer.from(line, "base64")));
    console.log("taken");
  } catch (error) {
    console.log("refused");
  }
});
