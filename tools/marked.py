"""A page of which the part between two marks is made by a program."""


def with_part(page, marks, part):
    """The page with this part, which ends with a line feed, between its marks."""
    before, rest = page.split(marks[0])
    return before + marks[0] + "\n" + part + "\n" + marks[1] + rest.split(marks[1])[1]
