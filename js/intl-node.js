// NumberFormat and PluralRules in Intl's place, with the library and the world's book, for Node, Deno and Bun.
import "./node.js";

export * from "./intl-core.js";
