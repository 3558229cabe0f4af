"use strict";
/* The worker of the part "Routes", which uses nothing of the page: the page starts it from a Blob of its source and the
 * glue's, since Chromium starts no worker from a file. Its first message has the octets of the module and of all files.
 * It posts each step, the number of lines that are done, and at the end the states, or a fault. A later message has
 * lines: it posts the VRPs that cover their routes. */
function routesWorker() {
  /* The states of lines have the order of STATE_NAMES: valid, not-found, invalid-as, invalid-length, skipped, error. */
  const PIECE = 50000, STRUCT = 24, INVALID = 2, SKIPPED = 4, ERROR = 5;
  let table = null;
  /** Returns the index of the first octet of each line, and behind the last one the end. */
  function startsOf(octets) {
    let count = 0;
    for (let at = 0; at < octets.length; count++) at = octets.indexOf(10, at) + 1 || octets.length;
    const starts = new Uint32Array(count + 1);
    for (let line = 1; line < count; line++) starts[line] = octets.indexOf(10, starts[line - 1]) + 1;
    starts[count] = octets.length;
    return starts;
  }
  /** Makes calls with a file. An error names the file, and the line, the item or the member that is wrong. */
  function withFile(step, { name, octets }, run) {
    postMessage({ step: `${step} ${name}` });
    try {
      return run(octets);
    } catch ({ message, code, fault, list, item, line = item }) {
      const text = message.replace(/^(?:VRP|file of VRPs|SLURM file|item of \w+): | \(\w+ \d+\)$/g, "");
      const place = line ? `${{ BAD_LINE: "line", BAD_SLURM: "member" }[code] ?? "item"} ${line}: ` : "";
      throw { message: `${name}: ${list ? `${list}: ` : ""}${place}${text}`, code, fault };
    }
  }
  /** Reads the files of VRPs, applies the SLURM file if there is one, and makes the table. Returns texts: how many VRPs
   * were read, how many expired before `now` (if it is not null), and how many the SLURM file removed and added. */
  function makeTable(files, slurm, now) {
    let left = 0, dated = 0;
    const lists = files.map((file) => withFile("Reading the VRPs of", file, (octets) => {
      if (now === null) return Pigyelund.readVrps(octets).octets;
      const { vrps, expired } = Pigyelund.readUnexpiredVrps(octets, now);
      left += expired;
      dated += Pigyelund.readUnexpiredVrps(octets, Number.MAX_SAFE_INTEGER).expired;
      return vrps.octets;
    }));
    let all = new Uint8Array(lists.reduce((sum, it) => sum + it.length, 0));
    lists.reduce((at, it) => (all.set(it, at), at + it.length), 0);
    const read = `${all.length / STRUCT + left} read`;
    const expired = dated ? `${left} expired of ${dated} with an expiry` : "none has an expiry that the page reads";
    const notes = slurm.map((file) => withFile("Applying", file, (octets) => {
      const before = all.length / STRUCT, added = Pigyelund.applySlurm(octets, []).length;
      all = Pigyelund.applySlurm(octets, all).octets;
      return `${before + added - all.length / STRUCT} removed and ${added} added by ${file.name}`;
    }));
    if (!all.length) throw { message: `no VRP is left${slurm.length ? ` after ${slurm[0].name}` : ""}` };
    postMessage({ step: "Making the table of VRPs" });
    table = new Pigyelund.Table(all);
    return now === null ? (notes.length ? [read, ...notes] : []) : [read, expired, ...notes];
  }
  /** Finds the states of lines. A wrong line ends a piece. The next ones are shorter, so that many stay quick. */
  function validateLines(file, from, end) {
    for (let size = end - from; from < end; ) {
      const to = Math.min(end, from + size);
      try {
        const lines = file.octets.subarray(file.starts[from], file.starts[to]);
        record(file, from, to, Pigyelund.readRoutes(lines).octets);
        from = to;
        size *= 2;
      } catch (fault) {
        if (!fault.line) throw fault;
        size = fault.line - 1 || Math.max(1, size >> 1);
        if (fault.line > 1) continue;
        file.states[from] = ERROR;
        file.faults.set(from++, [fault.message.replace(/^[^:]*: | \(line [0-9]+\)$/g, ""), fault.fault]);
      }
    }
  }
  /** Stores the states of valid lines. With fewer routes than lines, some lines are skipped: halves find them. */
  function record(file, from, to, routes) {
    const count = routes.length / STRUCT, middle = (from + to) >> 1;
    if (count === 0) file.states.fill(SKIPPED, from, to);
    else if (count < to - from) {
      validateLines(file, from, middle);
      validateLines(file, middle, to);
    } else {
      const { validities, reasons } = table.validate(routes);
      validities.forEach((it, index) => (file.states[from + index] = it === INVALID ? it + reasons[index] - 1 : it));
    }
  }
  async function run({ module, vrps, slurm, lines, now }) {
    await Pigyelund.load(module);
    const notes = makeTable(vrps, slurm, now);
    postMessage({ step: "Counting the routes" });
    const files = lines.map((it) => ({ ...it, starts: startsOf(it.octets), faults: new Map() }));
    const of = files.reduce((sum, it) => sum + it.starts.length - 1, 0);
    let done = 0;
    for (const file of files) {
      const count = file.starts.length - 1;
      file.states = new Uint8Array(count);
      for (let from = 0; from < count; from += PIECE) {
        const to = Math.min(count, from + PIECE);
        validateLines(file, from, to);
        postMessage({ done: (done += to - from), of });
      }
    }
    const buffers = files.flatMap((it) => [it.octets.buffer, it.starts.buffer, it.states.buffer]);
    postMessage({ files, vrps: table.length, notes }, buffers);
  }
  /** Returns for each line with a route the VRPs that cover it, each with the reason why it does not match. */
  function coveringOf(lines) {
    const { octets } = Pigyelund.readRoutes(lines);
    return Array.from({ length: octets.length / STRUCT }, (_, at) => {
      const found = table.covering(octets.slice(at * STRUCT, (at + 1) * STRUCT)).map(({ vrp, otherAs, tooLong }) =>
        `${otherAs ? "as" : tooLong ? "length" : "match"}:${vrp.prefix}-${vrp.maxLength}:AS${vrp.asn}`);
      return found.slice(0, 20).join(" ") + (found.length > 20 ? ` and ${found.length - 20} more` : "");
    });
  }
  onmessage = ({ data }) => {
    if (data.cover) postMessage({ covering: coveringOf(data.cover), page: data.page });
    else run(data).catch(({ message, code, fault }) => postMessage({ failed: message, code, number: fault }));
  };
}
