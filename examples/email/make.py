#!/usr/bin/env python3
"""Writes the harbour files of the email example, or prints their queries as trees.

    make.py FOLDER      writes FOLDER/NAME.harbour for each report
    make.py --trees     prints each report with the numbers of its query forms
"""
import sys

FEATURES = ["addressbook", "signature", "encryption", "autoresponder", "forwardmessages", "remailmessage", "filtermessages", "mailhost"]

# Relation, its condition, its columns. A column's condition stands after a colon.
SCHEMA = [
    ("employeelist", "true", "eid, firstname, lastname, email_id, folder, status, verification_key: signature, public_key: encryption"),
    ("messages", "true", "mid, sender, date, message_id, subject, body, folder, is_system_notification, is_encrypted: encryption, "
                         "is_autoresponse: autoresponder, is_signed: signature, is_forward_msg: forwardmessages"),
    ("recipientinfo", "true", "rid, mid, rtype, rvalue"),
    ("forward_msg", "forwardmessages", "eid, forwardaddr"),
    ("mailhost", "mailhost", "eid, username, mailhost"),
    ("filter_msg", "filtermessages", "eid, suffix"),
    ("remail_msg", "remailmessage", "eid, pseudonym"),
    ("auto_msg", "autoresponder", "eid, subject, body"),
    ("alias", "addressbook", "eid, email, nickname"),
]
EMP2 = ("emp2", "true", SCHEMA[0][2])  # a second copy of employeelist, in the reports sf
X = 1000  # the mid of the message


# A comparison is a tuple: a word, then what it takes. A query is one too: a word, what it takes besides queries, its queries.
# A column without its relation is that of the first relation with such a column.
def eq(a, b): return ("attr", a, b)
def is_constant(a, constant): return ("const", a, constant)
def relation(name): return ("relation", name)
def select(comparison, query): return ("select", comparison, query)
def project(columns, query): return ("project", columns, query)
def choice(condition, a, b): return ("choice", condition, a, b)
def join(comparison, a, b): return select(comparison, ("product", None, a, b))
def named(name, query): return ("named", name, query)  # where it is part of a report, the tree shows its name


ALWAYS = ("always",)
MESSAGE_X = is_constant("messages.mid", X)
ENCRYPTED = is_constant("is_encrypted", 1)
NOT_ENCRYPTED = ("not", ENCRYPTED)
FILTER_EID = eq("employeelist.eid", "filter_msg.eid")
FORWARD_EID = eq("employeelist.eid", "forward_msg.eid")
FILTER_EID_CHOSEN = ("choice", "filtermessages", FILTER_EID, ALWAYS)
FORWARD_EID_CHOSEN = ("choice", "forwardmessages", FORWARD_EID, ALWAYS)


def message_with_recipient(comparison):
    return join(eq("messages.mid", "recipientinfo.mid"), select(comparison, relation("messages")), relation("recipientinfo"))


MES_REC = named("mes_rec", message_with_recipient(MESSAGE_X))
MES_REC_EMP = named("mes_rec_emp", join(eq("rvalue", "employeelist.email_id"), MES_REC, relation("employeelist")))
MES_REC_EMP1 = named("mes_rec_emp1", join(eq("sender", "employeelist.email_id"), MES_REC, relation("employeelist")))
SF_TEMP = join(eq("emp2.eid", "forward_msg.eid"), join(eq("rvalue", "emp2.email_id"), MES_REC_EMP1, relation("emp2")), relation("forward_msg"))


def filtered(comparison): return join(comparison, MES_REC_EMP, relation("filter_msg"))
def forwarded(comparison, other="forward_msg"): return join(comparison, MES_REC_EMP, relation(other))
def forward(query): return project("rvalue, forwardaddr, subject, body", query)
def not_encrypted(comparison): return forward(select(("and", MESSAGE_X, comparison), forwarded(FORWARD_EID)))


Q_BASIC = named("Q_basic", project("sender, rvalue, subject, body", MES_REC))
Q_FILTER = named("Q_filter", project("sender, rvalue, suffix, subject, body", filtered(FILTER_EID)))
Q_FORWARD = named("Q_forward", forward(forwarded(FORWARD_EID, "auto_msg")))
Q_FORWARD_MENDED = named("Q_forward mended", forward(forwarded(FORWARD_EID)))
Q_SIG = named("Q_sig", project("sender, rvalue, is_signed, verification_key, subject, body", MES_REC_EMP1))
Q_ENCRYPT = named("Q_encrypt", project("sender, rvalue, is_encrypted, public_key, subject, body", MES_REC_EMP))


def four_ways(feature, both, alone, forward_alone):
    """Both features, the first alone, forwardmessages alone, neither."""
    return choice(feature + " and forwardmessages", both, choice(feature, alone, choice("forwardmessages", forward_alone, Q_BASIC)))


REPORTS = {
    "basic": Q_BASIC,
    "filter": Q_FILTER,
    "bf": choice("filtermessages", Q_FILTER, Q_BASIC),
    "bf-swapped": choice("filtermessages", Q_BASIC, Q_FILTER),
    "bf-short": project("sender, rvalue, suffix, subject, body", filtered(FILTER_EID_CHOSEN)),
    "forward": Q_FORWARD,
    "forward-mended": Q_FORWARD_MENDED,
    "forward-short": forward(forwarded(FORWARD_EID_CHOSEN)),
    "sig": Q_SIG,
    "sig-annotated": project("sender, rvalue, is_signed: signature, verification_key: signature, subject, body", MES_REC_EMP1),
    "sf": four_ways("signature", project("rvalue, forwardaddr, emp1.is_signed, verification_key", SF_TEMP), Q_SIG, Q_FORWARD),
    "sf-mended": four_ways("signature", project("rvalue, forwardaddr, is_signed, verification_key", SF_TEMP), Q_SIG, Q_FORWARD_MENDED),
    "sf-short": choice("forwardmessages", project(
        "rvalue, forwardaddr, is_signed, verification_key, subject: not signature, body: not signature", SF_TEMP), Q_SIG),
    "ef": four_ways("encryption", project("rvalue", select(("and", MESSAGE_X, ENCRYPTED), relation("messages"))), Q_ENCRYPT, Q_FORWARD),
    "ef-mended": four_ways(
        "encryption", project("rvalue", message_with_recipient(("and", MESSAGE_X, ENCRYPTED))), Q_ENCRYPT, Q_FORWARD_MENDED),
    "ef-prime": four_ways("encryption", not_encrypted(NOT_ENCRYPTED), Q_ENCRYPT, Q_FORWARD),
    "ef-prime-mended": four_ways("encryption", not_encrypted(NOT_ENCRYPTED), Q_ENCRYPT, Q_FORWARD_MENDED),
    "ef-prime-short": choice("forwardmessages", not_encrypted(("choice", "encryption", NOT_ENCRYPTED, ALWAYS)), Q_ENCRYPT),
    "filter-prime": project("sender, rvalue, suffix, is_system_notification, subject, body", filtered(FILTER_EID)),
    "filter-prime-short": project("sender, rvalue, suffix, is_system_notification, subject, body", filtered(FILTER_EID_CHOSEN)),
}


def put(table, form):
    """The number of a form that may be shared: it is written once."""
    if form not in table:
        table.append(form)
    return table.index(form)


class Tables:
    def __init__(self, name, query):
        self.schema = SCHEMA + [EMP2] * name.startswith("sf")
        self.attributes = [f"{relation}.{column.split(':')[0]}" for relation, _, columns in self.schema for column in columns.split(", ")]
        self.attributes += ["emp1.is_signed"] * (name == "sf")  # a column that no relation has
        self.expressions, self.entries, self.comparisons, self.queries, self.tree = [], [], [], [], []
        for text in ["true"] + FEATURES:
            self.expression(text)
        self.relations = [(self.expression(condition), self.list(columns, relation + ".")) for relation, condition, columns in self.schema]
        self.query(query[2] if query[0] == "named" else query, "")

    def attribute(self, name):
        return next(number for number, full in enumerate(self.attributes) if name in (full, full.split(".")[1]))

    def expression(self, text):
        if " and " in text:
            return put(self.expressions, (4, *map(self.expression, text.split(" and "))))
        if text.startswith("not "):
            return put(self.expressions, (3, self.expression(text[4:]), 0))
        return put(self.expressions, (1, 0, 0) if text == "true" else (2, FEATURES.index(text), 0))

    def list(self, columns, prefix=""):
        for column in columns.split(", "):
            name, _, condition = column.partition(": ")
            self.entries.append((self.attribute(prefix + name), self.expression(condition or "true")))
        return len(columns.split(", "))

    def comparison(self, comparison):
        """The number of a comparison, and how the tree shows it."""
        word, *rest = comparison
        if word == "const":
            form, text = (2, 2, self.attribute(rest[0]), rest[1], 0), f"{rest[0]} = {'X' if rest[1] == X else rest[1]}"
        elif word == "attr":
            form, text = (3, 2, *map(self.attribute, rest), 0), " = ".join(rest)
        else:
            operands = [self.comparison(each) for each in rest if isinstance(each, tuple)]
            numbers, texts = [number for number, _ in operands], [text for _, text in operands]
            if word == "always":
                form, text = (1, 0, 0, 0, 0), "true"
            elif word == "not":
                form, text = (4, 0, *numbers, 0, 0), f"not ({texts[0]})"
            elif word == "and":
                form, text = (5, 0, *numbers, 0), " and ".join(texts)
            else:
                form, text = (7, 0, self.expression(rest[0]), *numbers), f"{rest[0]}<{', '.join(texts)}>"
        return put(self.comparisons, form), text

    def query(self, query, indent):
        """Writes the forms of a query, operands first, and its lines of the tree. Gives the number of its own form."""
        word, of, *operands = query
        first, line = len(self.queries), len(self.tree)
        if word == "named":
            last = self.query(operands[0], indent)
            self.tree[line:] = [f"{last:3} {indent}{of} (forms {first} to {last})"]
            return last
        self.tree.append("")
        numbers = [self.query(each, indent + "  ") for each in operands]
        if word == "relation":
            form, text = (1, [each[0] for each in self.schema].index(of), 0, 0), of
        elif word == "select":
            number, text = self.comparison(of)
            form, text = (2, number, *numbers, 0), "select " + text
        elif word == "project":
            form, text = (3, self.list(of), *numbers, 0), "project " + of
        elif word == "choice":
            form, text = (4, self.expression(of), *numbers), "choice " + of
        else:
            form, text = (5, *numbers, 0), word
        self.queries.append(form)
        self.tree[line] = f"{len(self.queries) - 1:3} {indent}{text}"
        return len(self.queries) - 1

    def text(self):
        groups = {"head": [(len(FEATURES), len(self.attributes), 0)], "expression": self.expressions, "entry": self.entries,
                  "relation": self.relations, "comparison": self.comparisons, "query": self.queries}
        return "".join(f"({word} {' '.join(map(str, form))})\n" for word, forms in groups.items() for form in forms)


def main():
    if len(sys.argv) != 2:
        sys.exit(__doc__)
    for name, query in REPORTS.items():
        tables = Tables(name, query)
        if sys.argv[1] == "--trees":
            print(name, *tables.tree, "", sep="\n")
            continue
        with open(f"{sys.argv[1]}/{name}.harbour", "w") as file:
            file.write(tables.text())


if __name__ == "__main__":
    main()
