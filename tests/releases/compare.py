"""Compares the answers of today's library and program with those of earlier
releases: python3 tests/releases/compare.py

Every field and every place of every buffer that a stored answer has must be the
same today, and what requests have added to the answer since then must have its
neutral value, but for the rules in exceptions.py. What a request has taken away must
have been stored with its neutral value. A stored job is asked of the operation that
jobs.py names, and of the other one too, which must refuse it. What an answer must be
under a rule, by the independent implementation, the C reference must say too. Of the
newest operations both have to say what is due. Exits with 1 if an answer differs, if a
file of cases is missing, empty or not as long as the list of releases says, and if a
rule is about no stored case."""

import itertools
import sys
from collections import Counter, defaultdict
from typing import NamedTuple

sys.dont_write_bytecode = True
import by_reference
import today
from by_reference import wf
from exceptions import EXCEPTIONS
from jobs import TAKEN, called, refused_by_the_other
from stored import FOLDER, Case, case_file, pack, read_file, read_list

SHOWN = 5  # differences shown in full
NEWEST = "exact", "floor", "cut", "shortest"  # the operations that one release alone has stored


class Question(NamedTuple):
    """What today's library or program is asked."""
    case: Case
    operation: str
    due: dict  # the answer
    rules: tuple = ()  # the numbers of those about the case
    own: bool = True  # not of the other operation


def read_cases(folder):
    """The stored cases by release and operation, and what is wrong with the files."""
    cases, wrong = {}, []
    for release, operation, count in read_list(folder):
        path = case_file(folder, release, operation)
        found = list(read_file(path, release, operation)) if path.is_file() else []
        if count == 0 or len(found) != count:
            wrong.append(f"{release}/{path.name} has {len(found)} cases, and {count} are listed")
        cases[release, operation] = found
    return cases, wrong or ([] if cases else ["no release is listed"])


def rules_for(case, exceptions, releases):
    """The rules about a case: those of requests that came behind its release."""
    for number, rule in enumerate(exceptions):
        own = f"request-{rule.request}"
        earlier = own not in releases or releases.index(case.release) < releases.index(own)
        if earlier and case.operation in rule.operations and rule.applies(case.given):
            yield number, rule


def added(case):
    """What requests 1 and 6 add to the answer of a job that was stored before them: without rows and without blocks
    their buffers stay, and the total is the floor."""
    if case.operation != "job":
        return {}
    fields = dict(row=0, scales={}, total=case.answer["floor"], blocks={})
    return {name: value for name, value in fields.items() if name not in case.answer}


def taken(case):
    """What request 9 takes away from the answer of a job, as it must be stored."""
    return TAKEN[called("job", case.given)] if case.operation == "job" else {}


def expected(case, rules):
    """The fields that the answer must have today."""
    answer = case.answer | added(case)
    for rule in rules:
        for name in rule.fields or list(answer):
            answer.pop(name, None)
    for rule in rules:
        answer.update(rule.now(called(case.operation, case.given), case.given) if rule.now else {})
    return {name: value for name, value in answer.items() if name not in taken(case)}


def questions(case, rules):
    """A stored case, asked of its operation and, if it is a job, of the other one."""
    own = Question(case, called(case.operation, case.given), expected(case, rules.values()), tuple(rules))
    yield own
    if case.operation == "job" and "number" in own.due:
        yield Question(case, *refused_by_the_other(own.operation, case.given, own.due["number"]), own=False)


def all_questions(cases, exceptions, releases):
    for case in itertools.chain(*cases.values()):
        yield from questions(case, dict(rules_for(case, exceptions, releases)))


def difference(case, answer, due, who="today"):
    """The words of a difference; empty if there is none."""
    names = [name for name in due if name not in answer or answer[name] != due[name]]
    if not names:
        return ""
    words = [f"differs: {case.release}/{case.operation}.txt, line {case.line}: {', '.join(names)}",
             "  given  " + pack(case.given, False),
             "  due    " + pack({name: due[name] for name in names}, True),
             f"  {who}  " + pack({name: answer[name] for name in names if name in answer}, True)]
    return "\n".join(word if len(word) <= 400 else word[:400] + " ..." for word in words)


def lost(case):
    """Where a stored answer had more than what a request took away."""
    due = {name: value for name, value in taken(case).items() if name in case.answer}
    return difference(case, case.answer, due, "stored")


def differences(answers, operation, asked, who):
    """Where these answers of an operation differ from what is due."""
    given = answers(operation, [question.case.given for question in asked])
    return [difference(question.case, answer, question.due, who)
            for question, answer in zip(asked, given, strict=True)]


def all_differences(operation, asked):
    """Those of today's answers, and of both references for the newest operations. What a rule says to be due is by the
    one in Python. The C reference prints no text."""
    newest = operation in NEWEST
    for_c = [question for question in asked if newest or question.rules] if operation != "text" else []
    differ = differences(today.answers, operation, asked, "today")
    differ += differences(today.by_c_reference, operation, for_c, "C")
    return differ + differences(by_reference.answers, operation, asked if newest else [], "Python")


def by_operation(asked):
    groups = defaultdict(list)
    for question in asked:
        groups[question.operation].append(question)
    return groups.items()


def compare(folder, exceptions):
    """Prints what was compared; answers whether all is as it was."""
    cases, wrong = read_cases(folder)
    releases = list(dict.fromkeys(release for release, _ in cases))
    asked = list(all_questions(cases, exceptions, releases))
    found = [lost(question.case) for question in asked if question.own]
    found += itertools.chain(*(all_differences(operation, some) for operation, some in by_operation(asked)))
    wrong += filter(None, found)
    compared = Counter(question.case.release for question in asked if question.own and question.due)
    for release in releases:
        print(f"{release}: {compared[release]} cases compared")
    refused = Counter(question.due["number"] for question in asked if not question.own)
    print(f"asked of the other operation too: {refused.total()} jobs, {refused[wf.BAD_KIND]} refused with 16")
    excepted = Counter(number for question in asked for number in question.rules)
    for number, rule in enumerate(exceptions):
        print(f"request {rule.request}: {excepted[number]} cases: {rule.why}")
        if excepted[number] == 0:
            wrong.append(f"a rule of request {rule.request} is about no stored case: {rule.why}")
    print("\n".join(wrong[:SHOWN] + [f"{len(wrong)} wrong"]) if wrong else "all as in the earlier releases")
    return not wrong


if __name__ == "__main__":
    sys.exit(0 if compare(FOLDER, EXCEPTIONS) else 1)
