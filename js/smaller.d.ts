/**
 * The JSON of a book that has only the locales of these tags, with those below them, as `de-AT` is below `de`. Every such tag is answered as by the
 * book that it is made of, or is refused where it asks for digits of another system than its locale uses.
 */
export function smallerBook(json: string, tags: readonly string[]): string;
