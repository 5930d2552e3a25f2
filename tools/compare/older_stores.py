"""Commits as older stores have them: those that store one group of all names, and those without groups. Such stores open, and aren't good."""
import picture_rules
import python_cells
import session_rules
from store_rules import commit_body


def commit_whole(session, texts, pictured=True):
    """Runs cells in a session, and records a commit of them that drops the groups of its parent's table, and stores one of all names."""
    for text in texts:
        session.run(text, session.space)
    names = python_cells.names_in(session.space) if pictured else []
    stored = [(names, picture_rules.picture(session.space, names))] if names else []
    commit = session.graph.commit
    dropped = [row.names for row in session.graph.tables[commit]]
    session.record(commit_body(commit, [text.encode() for text in texts], dropped, stored))


def whole_store(*texts):
    """A store of such commits, of a cell each."""
    session = session_rules.Session(None)
    for text in texts:
        commit_whole(session, [text])
    return session.file
