// Number skeletons, ICU's texts for formats of numbers: what is wrong in one, and the normal text.
import { ErrorNumber, LegumeyetError, NONE, begun, calling, calls, written } from "./instance.js";

const FAULTS = ["unknown", "twice", "code", "pair", "system", "later", "unsupported"]; // by their numbers

/** A text is no skeleton: `fault` says why, in a word, and `place` where the word begins that is wrong. */
export class SkeletonError extends LegumeyetError {
  constructor(number, skeleton, place) {
    super(number, `: ${JSON.stringify(skeleton.slice(place).split(" ", 1)[0].slice(0, 40))} at ${place}`);
    this.fault = FAULTS[number - ErrorNumber.SKELETON_UNKNOWN];
    this.place = place;
  }
}
Object.defineProperty(SkeletonError.prototype, "name", { value: "SkeletonError" });

/** Runs what reads a skeleton. What is before a place in it is ASCII, so that it counts bytes and characters alike. */
export function reading(skeleton, run) {
  try {
    return run();
  } catch (error) {
    if (!(error instanceof LegumeyetError) || FAULTS[error.number - ErrorNumber.SKELETON_UNKNOWN] === undefined) throw error;
    throw new SkeletonError(error.number, skeleton, calls.js_place());
  }
}

/** The one text of all skeletons that ask for the same: of `K  sign-auto` it is `compact-short`. Throws a SkeletonError. */
export function normalSkeleton(skeleton) {
  if (typeof skeleton !== "string") throw new TypeError("a skeleton is a string");
  begun();
  const call = calling("js_skeleton_normal");
  return reading(skeleton, () => written(0, (_, length) => call(length), NONE, new TextEncoder().encode(skeleton)));
}
