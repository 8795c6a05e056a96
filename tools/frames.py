"""Counts the functions on the stacks of one vote over HTTP, by the calls that stand in the sources; run alone, it lists them.

A stack goes from `main` of the program to the last step of a piece of the work. Each is told below by some of its functions, and between two of these stand the fewest calls that lead from
one to the other. A call of a method leads to the one function of that name, or to those that a stack names: so a trait's method leads to the type that the program has there."""
import os
import re
import sys
from collections import defaultdict, deque

TESTS = {"language_scripts", "value_tests", "word_scripts"}

# `crate::name`, or `crate::Type::name` of a function of a type. All begin at `review_desk::main`.
SERVED = "review_desk::run review_desk::serve_on review_desk_work::work review_http::serve_connections review_http::serve_request"
READ = SERVED + " review_http_requests::read_request"
TAKEN = SERVED + " review_machine_deliveries::deliver"
TOLD = SERVED + " review_http::response_of"
STACKS = {
    "common": [SERVED],
    "head": [READ + " review_http_requests::on_change review_names::read_number"],
    "body": [READ + " review_json_routes::command_of review_json_routes::labels_in review_names::Name::read"],
    "recall": [TAKEN + " review_sql::SqlShelf::recall review_sql_tables::find review_sql_tables::select"],
    "look-ups": [
        TAKEN + " review_machine_deliveries::first_arrival review_sql::SqlShelf::load review_sql_change_lookups::find_change review_sql_tables::find_parts review_sql_change_records::Votes::read review_sql_change_records::vote_at",
    ],
    "decision": [
        TAKEN + " review_machine_deliveries::first_arrival review_machine::DeskRules::decide review_machine_changes::reviewed review_core::ChangeFile::with_review review_core_tables::give review_table::Edited::set",
    ],
    "write": [TAKEN + " review_machine_deliveries::first_arrival review_sql::SqlShelf::commit review_sql_writes::transact review_sql_tables::change_parts review_sql_tables::insert"],
    "answer": [
        TOLD + " review_json::Reply::write_to review_json::Answer::write_to review_json::CommentNumbers::write_to review_json::JsonText::list review_json::Number::write_to review_json::JsonText::number",
        TOLD + " review_http::put_status",
        SERVED + " review_http_requests::Counted::write review_desk::Outgoing::write review_desk::SharedStream::write_within",
    ],
}

FUNCTION = re.compile(r"^(\s*)(?:pub(?:\([^)]*\))?\s+)?(?:const\s+)?fn\s+(\w+)")
OWNER = re.compile(r"^impl(?:<.*?>)?\s+(?:[\w:<>,' ]+?\s+for\s+)?(\w+)|^(?:pub )?trait (\w+)")
CLAUSE = re.compile(r"^\s*(requires|ensures|measure|recursive)\b")
CALL = re.compile(r"(?:(\.)|(?<![\w!:]))((?:\w+(?:::<[^()]*?>)?::)*\w+)(?:::<[^()]*?>)?\(")
USE = re.compile(r"^(?:pub )?use ([^;]+);", re.M)


class Function:
    def __init__(self, crate, owner, name, path):
        self.crate, self.owner, self.name, self.path = crate, owner, name, path
        self.title = "::".join(part for part in (crate, owner, name) if part)
        self.calls = []


def body_at(lines, at, indent):
    """The first and the last line of a function's body, or none where it has none."""
    in_clause = False
    while not (lines[at] == indent + "{" or (not in_clause and lines[at].endswith("{"))):
        in_clause = in_clause or bool(CLAUSE.match(lines[at]))
        if lines[at].endswith(("{}", ";")):
            return None
        at += 1
    end = at
    while lines[end] != indent + "}":
        end += 1
    return at + 1, end


def functions_of(crate, path, lines):
    owner = None
    for at, line in enumerate(lines):
        named, begun = OWNER.match(line), FUNCTION.match(line)
        if named:
            owner = named.group(1) or "trait " + named.group(2)
        elif line == "}":
            owner = None
        if begun:
            function = Function(crate, owner, begun.group(2), path)
            body = body_at(lines, at, begun.group(1))
            if body:
                text = "\n".join(line for line in lines[body[0]:body[1]] if not line.strip().startswith(("//", "ghost ")))
                function.calls = CALL.findall(text)
                yield function


def names_used(text):
    """The names that a source brings in, each with where it comes from."""
    used = {}

    def walk(front, rest):
        depth, part = 0, ""
        for letter in rest + ",":
            if letter == "," and depth == 0:
                part = part.strip()
                if "{" in part:
                    before, inner = part.split("{", 1)
                    walk(front + before, inner.rsplit("}", 1)[0])
                elif part:
                    whole, _, other = part.partition(" as ")
                    used[other or whole.split("::")[-1]] = front + whole
                part = ""
            else:
                depth += (letter == "{") - (letter == "}")
                part += letter

    for found in USE.finditer(text):
        walk("", found.group(1).replace("\n", " "))
    return used


class Sources:
    def __init__(self, folder):
        self.functions, self.named, self.used = [], defaultdict(list), {}
        for crate in sorted(set(os.listdir(folder)) - TESTS):
            for at, _, files in os.walk(os.path.join(folder, crate, "src")):
                for name in sorted(files):
                    path = os.path.join(at, name)
                    with open(path) as file:
                        lines = file.read().splitlines()
                    self.used[path] = names_used("\n".join(lines))
                    self.functions += functions_of(crate, path, lines)
        for function in self.functions:
            self.named[function.name].append(function)
        self.told = {name for stacks in STACKS.values() for stack in stacks for name in stack.split()}

    def called(self, function):
        """The functions that a function's calls lead to."""
        for dot, path in function.calls:
            *front, name = [part for part in path.split("::") if part[0] != "<"]
            if dot or front and front[-1][0].isupper():
                owner = None if dot else function.owner if front[-1] == "Self" else front[-1]
                methods = [other for other in self.named[name] if other.owner and not other.owner.startswith("trait ")]
                own = [other for other in methods if other.owner == owner]
                yield from own or [other for other in methods if len(methods) == 1 or other.title in self.told]
            else:
                yield from self.plain(function, front, name)

    def plain(self, function, front, name):
        """The function that a call without a type leads to: of this source, or of where its name is brought in from."""
        brought = self.used[function.path].get(front[0] if front else name)
        places = (brought.split("::") if brought else front[:1]) + (front[1:] + [name] if front else [])
        free = [other for other in self.named[places[-1] if places else name] if other.owner is None]
        if not places:
            return [other for other in free if other.path == function.path]
        is_crate = places[0].startswith("review_")
        within = [other for other in free if other.crate == (places[0] if is_crate else function.crate)]
        at = [other for other in within if len(places) > 1 and other.path.endswith(f"/{places[-2]}.rt")]
        return at or within or [other for other in free if is_crate]

    def chain(self, start, leaf):
        """The fewest functions from one to another, without the first."""
        before, waiting = {start: None}, deque([start])
        while waiting:
            function = waiting.popleft()
            if function.title == leaf:
                found = []
                while before[function]:
                    found.insert(0, function)
                    function = before[function]
                return found
            for other in self.called(function):
                if other not in before:
                    before[other] = function
                    waiting.append(other)
        sys.exit(f"frames: no calls lead from {start.title} to {leaf}; tools/frames.py names the stacks")


def frames(folder):
    """The functions on each stack, by its name."""
    sources = Sources(folder)
    titles = {function.title for function in sources.functions}
    missing = sorted(name for name in sources.told if name not in titles)
    if missing:
        sys.exit("frames: not found: " + ", ".join(missing) + "; tools/frames.py names the stacks")
    [main] = [function for function in sources.functions if function.title == "review_desk::main"]
    found = {}
    for name, stacks in STACKS.items():
        found[name] = [main]
        for stack in stacks:
            function = main
            for leaf in stack.split():
                for function in sources.chain(function, leaf):
                    if function not in found[name]:
                        found[name].append(function)
    return found


def line(folder):
    every = {function for stack in frames(folder).values() for function in stack}
    return f"frames of a vote over HTTP: {len(every)} in {len({function.crate for function in every})} crates"


if __name__ == "__main__":
    top = sys.argv[1] if len(sys.argv) > 1 else os.path.join(os.path.dirname(os.path.abspath(__file__)), "..")
    seen = set()
    for name, stack in frames(os.path.join(top, "crates")).items():
        print(f"{name}:", ", ".join(function.title for function in stack if function not in seen))
        seen.update(stack)
    print(line(os.path.join(top, "crates")))
