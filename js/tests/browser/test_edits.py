"""Random edits, after each of which the text, the value, what is sent and what is wrong agree. SEED says which, and EDITS how many."""
import os

from harness import BrowserCase

PIECE = 1_000


class Edits(BrowserCase):
    """Edits by a seed."""

    def test_edits(self):
        seed, count = os.environ.get("SEED", "seed"), int(os.environ.get("EDITS", "10000"))
        self.open("trial.html", "typeof begin === 'function'")
        for done in range(0, count, PIECE):
            piece = f"{seed} {done}"
            found = self.look(f"import('./wander.js').then((it) => it.wander({piece!r}, {min(PIECE, count - done)}))")
            self.assertIsNone(found, f"seed {piece!r}")
        print(f"{self.browser.name}: {count} edits by the seed {seed!r}", flush=True)
