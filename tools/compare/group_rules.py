"""Which groups a commit drops and stores, and how many bytes a state takes then, read a second time: by docs/STORE.md and
docs/PICTURES.md, and by nothing of the program. The whole state is walked, and each group's picture compared with the one that the file
holds. What a cell accessed says nothing of which groups changed, but of loose rows: those whose names aren't one group of the state that
the table tells. A good store has none. It says which of the others are read again."""
import bound_rules
import picture_rules
import python_cells


def groups(space):
    """All groups of a state, each as its names in byte order, in the order of their first names."""
    names = python_cells.names_in(space)
    picture_rules.expect_single_constants(space, names)
    return sorted(map(tuple, bound_rules.groups(space)))


def loose_rows(rows, space):
    """The rows of a table that aren't one group of the state that it tells."""
    found = set(groups(space))
    return [row for row in rows if row.names not in found]


def untouched(loose, accessed):
    """The loose rows without an accessed name: they stay in the table as they are."""
    return [row for row in loose if accessed.isdisjoint(row.names)]


def groups_beside(space, still):
    """The groups of a state, without those of the names of rows that stay as they are."""
    names = {name for row in still for name in row.names}
    return [group for group in groups(space) if names.isdisjoint(group)]


def size(space, still):
    """The bytes that a state takes, told beside rows that stay as they are."""
    return sum(row.length for row in still) + sum(bound_rules.picture_size(space, group) for group in groups_beside(space, still))


def changes(rows, file, space, still):
    """The groups that are dropped of a table, and those that are stored of a state with their pictures, beside rows that stay as they are."""
    now = {group: picture_rules.picture(space, group) for group in groups_beside(space, still)}
    before = {row.names: file[row.place : row.place + row.length] for row in rows if row not in still}
    dropped = sorted(group for group, picture in before.items() if now.get(group) != picture)
    stored = sorted((group, picture) for group, picture in now.items() if before.get(group) != picture)
    return dropped, stored


def asked(rows, dropped, accessed):
    """The bytes that a commit reads: those of the pictures of the rows with an accessed name that aren't dropped."""
    return sum(row.length for row in rows if row.names not in dropped and not accessed.isdisjoint(row.names))
