// Return codes by their names, as FORMATS.md has them.

export class Codes {
  // `rows` has a name and a value for each code, as texts.
  constructor(rows) {
    this.names = new Map(rows.map(([name, value]) => [value, name]));
  }

  // A reply without its receipts, and the name of the code that a call answers; of a set a partition's number is first.
  named(reply, isSet) {
    const words = reply.split(" ");
    const [call, code] = words.slice(isSet ? 3 : 2);
    const isCall = call !== undefined && (call.startsWith("H_") || call === "hcall");
    const name = isCall ? this.names.get(code) : undefined;
    return name === undefined ? reply : `${reply} (${name})`;
  }
}
