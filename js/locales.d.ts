/** The tags of the locales of the world's book, in order. */
declare const locales: readonly string[];
export default locales;
