// Pigyelund as a module, for Node and for bundlers. The scripts set PigyelundModule and Pigyelund of globalThis.
import "./module.js";
import "./pigyelund.js";

export const {
  Error, Resources, Table, addressText, answer, applySlurm, load, readRoutes, readUnexpiredVrps, readVrps,
  source, validateRoutes, validityText,
} = globalThis.Pigyelund;
export default globalThis.Pigyelund;
