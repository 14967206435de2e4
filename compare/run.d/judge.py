"""Judges a rule's two answers, and counts."""
from collections import Counter

import entries
from listings import BUDGET, COMPARED, ENDED, GAVE_UP, LAST, first_difference, how_far, model, our_listing, rust_listing
from programs import SLOW, ask

# moves by frequency: enough for the whole range, or for the Rust's rounds, where a move is cheap
DEEP_BUDGET = (10000, 100000, 100000, 100000, 20000, 5000, 2000)
BUDGET_OF_MOVES = (500, 4000, 10000, 10000, 5000, 2000, 200)
FREQUENCIES = ("YEARLY", "MONTHLY", "WEEKLY", "DAILY", "HOURLY", "MINUTELY", "SECONDLY")
MODEL_ONE_IN = 500  # of the rules on which the two agree
MODEL_OF_AN_ENTRY = 50
PUBLIC_OF_A_RUN = 100
MODEL_ALONE = "the model alone lists otherwise"


class Pair:
    """A rule and both answers to it."""

    def __init__(self, line, deep):
        self.line, self.deep = line, deep
        self.given = model.Rule(line)
        self.refusal = model.refusal(self.given)
        self.entries, self.read_as = entries.as_the_rust_reads(self.given) if self.refusal else ([], line)
        self.rule = model.Rule(self.read_as) if self.read_as else self.given
        self.ours = self.theirs = self.difference = None

    def our_lines(self):
        """The rule; and where we refuse it, the rule that the Rust makes of it."""
        moves = (DEEP_BUDGET if self.deep else BUDGET_OF_MOVES)[self.rule.freq]
        words = f" room={COMPARED} moves={moves}"
        lines = [self.line] if self.refusal else []
        return [line + words for line in lines + ([self.read_as] if self.read_as else [])]

    def take_ours(self, answers):
        self.our_answers = answers
        if self.read_as and answers[-1] != SLOW and not answers[-1].startswith(("refused", "bad")):
            self.ours = our_listing(self.rule, answers[-1])
        room = COMPARED if self.deep or not self.ours or self.ours.stop != BUDGET else len(self.ours.instants)
        self.rust_line = f"{self.line} max={room} cap={LAST} at=1"

    def take_theirs(self, answer):
        self.rust_answer = answer
        self.theirs = rust_listing(self.rule, answer)
        if self.ours and self.theirs:
            self.difference = first_difference(self.ours, self.theirs)


class Judge:
    def __init__(self, mended, oracle):
        self.mended, self.oracle = mended, oracle
        self.explainer = entries.Explainer(mended)
        self.total = 0
        self.classes, self.explained, self.with_model = Counter(), Counter(), Counter()
        self.parts = Counter()  # of the rules whose listings were compared
        self.refusals = Counter()  # by number
        self.unlisted = []

    def count(self, pair, name):
        self.classes[name, pair.given.freq] += 1

    def wrong(self, pair, why):
        self.count(pair, "unlisted disagreement")
        self.unlisted.append((pair.line, why, pair.our_answers, pair.rust_answer))

    def judge(self, pair):
        self.total += 1
        if pair.refusal and pair.our_answers[0] != f"refused {pair.refusal}":
            return self.wrong(pair, f"the model refuses it: {pair.refusal}")
        if pair.refusal:
            self.refusals[pair.refusal] += 1
        if SLOW in pair.our_answers or pair.rust_answer == SLOW:
            who = "the Rust takes" if pair.rust_answer == SLOW else "we take"
            return self.count(pair, f"not at all: {who} too long")
        if pair.read_as and pair.ours is None:
            return self.wrong(pair, "the model refuses nothing")
        if pair.rust_answer.startswith("refused"):
            return self.judge_refused(pair)
        if pair.theirs is None:
            return self.wrong(pair, "the Rust panics")
        if entries.refused_by_the_rust(pair.given):
            return self.wrong(pair, "an entry says that the Rust refuses it")
        if pair.refusal:
            return self.judge_read_otherwise(pair)
        self.judge_listings(pair)

    def judge_refused(self, pair):
        if pair.refusal:
            return self.count(pair, "not at all: both refuse")
        found = entries.refused_by_the_rust(pair.rule)
        if not found:
            return self.wrong(pair, "the Rust refuses it, and no entry says so")
        self.explained.update(found)
        self.count(pair, "not at all: the Rust alone refuses")

    def judge_read_otherwise(self, pair):
        """We refuse, and the Rust lists. It has to list what the entry says."""
        if not pair.entries:
            return self.wrong(pair, "we alone refuse it, and no entry says so")
        if pair.read_as is None:
            if pair.theirs.instants and pair.theirs.instants[0] < pair.given.start:
                return self.wrong(pair, "the Rust lists what is before the start")
            self.explained.update(pair.entries)
            return self.count(pair, "not at all: we alone refuse")
        if self.judge_listings(pair, counted=False):
            self.explained.update(pair.entries)
            self.count(pair, "we alone refuse: the Rust lists what the entry says")

    def judge_listings(self, pair, counted=True):
        self.count_parts(pair)
        if pair.difference is not None:
            return self.judge_difference(pair, counted)
        if not self.explainer.agrees_mended(pair):
            return self.wrong(pair, "we list what the Rust lists, and it goes wrong")
        if not self.model_agrees(pair, self.total % MODEL_ONE_IN == 0, "agreeing"):
            return self.wrong(pair, MODEL_ALONE)
        if counted:
            self.count_agreeing(pair)
        return True

    def count_parts(self, pair):
        """Which parts the rules have whose listings are compared over some stretch."""
        rule = pair.given
        if pair.ours.stop == BUDGET and not pair.ours.instants and not pair.deep:
            return
        self.parts.update(key.upper() for key in (*model.LISTS, "count", "until") if getattr(rule, key) not in (None, []))
        self.parts["neither COUNT nor UNTIL"] += rule.count is None and rule.until is None
        self.parts["listings compared"] += 1
        self.parts["instants compared"] += len(pair.theirs.instants)

    def count_agreeing(self, pair):
        if pair.theirs.stop == GAVE_UP:
            if not entries.gives_up_rightly(pair.rule, pair.theirs):
                return self.wrong(pair, "the Rust gives up after other than 99,999 rounds")
            if not self.public_hides_it(pair):
                return self.wrong(pair, "through RRuleSet the limit shows")
            self.explained[entries.ROUNDS] += 1
        if pair.theirs.capped:
            self.explained[entries.YEAR_10000] += 1
        if pair.ours.stop == BUDGET and not pair.ours.instants and not pair.deep:
            return self.count(pair, "not at all: nothing is due within our budget of moves")
        self.count(pair, how_far(pair.ours, pair.theirs))

    def public_hides_it(self, pair):
        """Some rules are asked again the public way, which has to say that the listing ended."""
        if self.explained[entries.PUBLIC] == PUBLIC_OF_A_RUN:
            return True
        self.explained[entries.PUBLIC] += 1
        answer, = ask(self.oracle, [f"{pair.rust_line} set=1"])
        return answer.startswith(f"ok n={len(pair.theirs.instants)} end=1 limited=0")

    def judge_difference(self, pair, counted):
        found = self.explainer.entries(pair)
        if not found:
            return self.wrong(pair, "no entry explains it")
        if not self.model_agrees(pair, any(self.with_model[entry] < MODEL_OF_AN_ENTRY for entry in found), found[0]):
            return self.wrong(pair, MODEL_ALONE)
        self.explained.update(found)
        if counted:
            self.count(pair, "listed otherwise, as an entry says")
        return True

    def model_agrees(self, pair, asked, name):
        """Whether the model lists what we list, where it is asked."""
        instants = len(pair.ours.instants)
        if not asked or pair.ours.stop == BUDGET and instants == 0:
            return True
        self.with_model[name] += 1
        listed, _, stop = model.answer(f"{pair.read_as} room={instants}").partition(": ")
        ends = stop == "ended" or pair.ours.stop != ENDED
        return ends and [int(instant) for instant in listed.split()] == pair.ours.instants

    def close(self):
        self.mended.close()

    def report(self):
        for name in sorted({name for name, _ in self.classes}):
            counts = [self.classes[name, freq] for freq in range(7)]
            print(f"{sum(counts):8}  {name}: " + ", ".join(f"{f} {n}" for f, n in zip(FREQUENCIES, counts) if n))
        print(f"{self.total:8}  rules in all")
        print("compared: " + ", ".join(f"{part} {n}" for part, n in sorted(self.parts.items())))
        print("refused: " + ", ".join(f"{n} by {number}" for number, n in sorted(self.refusals.items())))
        print("entry, and how many rules it explains:")
        for entry in sorted(entries.named_entries() | self.explained.keys(), key=lambda e: -self.explained[e]):
            print(f"{self.explained[entry]:8}  {entry}")
        held, agreeing = sum(self.with_model.values()), self.with_model["agreeing"]
        print(f"{held:8}  of our answers held against the model, {agreeing} where the two agree")
        print(f"{self.explainer.both_ways:8}  of the differing listings held against the Rust mended in every other place")
        mended_too, not_waited_for = self.explainer.mended_too, self.explainer.not_waited_for
        print(f"{mended_too:8}  of the agreeing listings held against the Rust mended in every place; {not_waited_for} more took too long")
        print(f"{len(self.unlisted):8}  disagreements that no entry explains")
        for why, number in Counter(why for _, why, _, _ in self.unlisted).items():
            print(f"{number:8}  of these: {why}")
        for line, why, ours, theirs in sorted(self.unlisted, key=lambda w: (len(w[0].split()), len(w[0])))[:20]:
            print(f"{line}\n  why   {why}\n  ours  {' | '.join(ours)[:400]}\n  Rust  {theirs[:400]}")
