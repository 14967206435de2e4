"""Another reader of rule texts held against compare/texts-model: what was found, and whether every difference is of a listed kind."""
from collections import Counter

SHOWN = 10


class Judge:
    """Counts what was found. What is otherwise than listed is printed, the first few times."""

    def __init__(self, kinds):
        self.listed, self.counts, self.kinds, self.wrong = kinds, Counter(), Counter(), 0

    def differs(self, what, text, *answers):
        self.wrong += 1
        if self.wrong <= SHOWN:
            print(f"{what}: {text[:200]}\n" + "".join(f"  {str(answer)[:300]}\n" for answer in answers))

    def judge(self, text, answer):
        """Compares one text, for which the other reader gave an answer. Answers the kinds that show."""
        raise NotImplementedError

    def judge_smallest(self, answers):
        """Each smallest text has to show its kind, and it alone. They are counted nowhere."""
        for (kind, (_, text)), answer in zip(self.listed.items(), answers):
            shown = self.judge(text, answer)
            if shown != {kind}:
                self.differs("a smallest text shows other kinds", text, kind, shown)
        self.counts.clear()
        self.kinds.clear()

    def report(self, seed, count):
        print(f"seed {seed}: {count} lines")
        for what, times in self.counts.items():
            print(f"{times:9} {what}")
        print("\nkinds of difference, and the texts that show them:")
        for kind, (what, _) in self.listed.items():
            print(f"{self.kinds[kind]:9} {kind}: {what}")
        print(f"\n{self.wrong or 'none'} otherwise than listed")
