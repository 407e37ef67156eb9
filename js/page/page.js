// Loads the page, and says what it was that did not load.
try {
  await import("./show.js");
} catch (error) {
  document.getElementById("fault").textContent = error.message;
  throw error;
}
