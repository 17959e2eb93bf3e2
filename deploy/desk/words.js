// How the page names what a day came to: a letter or two for the eye, and words.
import { several } from "./elements.js";

const LETTERS = {
  receipt: ({ failures }) => `R${failures || ""}`,
  failure: ({ check }) => `F${check}`,
  absence: () => "A",
  parts: () => "P",
  due: () => "D",
  open: () => "·",
};
const WORDS = {
  receipt: ({ failures }) => (failures ? `receipt after ${several(failures, "failure")}` : "receipt"),
  failure: ({ check, failures }) => `failure of check ${check}${failures > 1 ? `, the last of ${failures}` : ""}`,
  absence: () => "absence",
  parts: ({ failures }) => `parts without a statement${failures ? ` after ${several(failures, "failure")}` : ""}`,
  due: () => "due: the day is over without a notice",
  open: () => "not yet due",
};

export const letters = (it) => LETTERS[it.state](it);
export const words = (it) => WORDS[it.state](it);
