"""What all names of a checkout mean: goes over every source once."""
from .antt_syntax import read_term
from .clause_names import Clauses
from .proof_facts import ProofFacts
from .rust_names import RustNames
from .text_names import Sources


class ResolvedCheckout(ProofFacts):
    """A checkout with the types and names that its sources give."""

    def __init__(self, top):
        super().__init__(top)
        for module in self.rust.values():
            names = RustNames(self, module)
            self.names[module] = names.run()
            module.functions = names.functions
        self.cycles = self.find_cycles()
        for module in self.rust.values():
            self.find_clauses(module)
        for module in self.rust.values():
            Clauses(self, module, self.names[module]).run()
        for module in self.antt.values():
            self.names[module] = Sources(self, module).run()

    def find_cycles(self):
        """The functions of each `#[cycle(name)]`, by crate and name."""
        found = {}
        for module in self.rust.values():
            for function in module.functions:
                for first, last in function.symbol.item.attributes:
                    words = [module.source.tokens[at].text for at in range(first, last)]
                    if "cycle" in words:
                        found.setdefault((module.crate, words[words.index("cycle") + 2]), []).append(function)
        return found

    def find_clauses(self, module):
        """Gives each function its clauses, by their words and names."""
        tokens = module.source.tokens
        for function in module.functions:
            item = function.symbol.item
            for first, last, word in module.source.clauses:
                if word in ("requires", "ensures") and item.first < first <= (item.body[0] if item.body else item.last):
                    name = tokens[first - 2].text if tokens[first - 2].kind == "name" and tokens[first - 2].text != word else ""
                    function.clauses[word, name] = read_term(tokens, first, last)
