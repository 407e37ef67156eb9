// The library with the world's book, for browsers, and for all that fetches. Bundlers find both files by their literal addresses.
import { fetched, load } from "./instance.js";
import { setLargeWorld } from "./small-books.js";

const [world] = await Promise.all([
  fetched("world.json", fetch(new URL("./world.json", import.meta.url))),
  load(fetch(new URL("./legumeyet.wasm", import.meta.url))),
]);
setLargeWorld(world);

export * from "./classes.js";
