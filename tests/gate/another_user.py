"""A user without rights of his own, whom tests of root's take for what root may do and others may not."""
import os
import shutil

# The user, and his group.
NOBODY = 65534


def become(user):
    """In a child that is about to run a program: it goes on as this user; with None as the one it has."""
    if user is not None:
        os.setgroups([])
        os.setgid(user)
        os.setuid(user)


def for_another(program, folder):
    """A copy of a program in a folder of the test's own, which others may enter then, and the user to run it as: nobody, or
    None if this isn't root. The clone may lie in a folder that only its owner may enter."""
    os.chmod(folder, 0o755)
    return shutil.copy(program, os.path.join(folder, "program")), NOBODY if os.geteuid() == 0 else None
