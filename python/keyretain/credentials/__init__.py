"""Secrets of other programs, kept by keyretaind(8): helpers of git and docker, a backend of Python's keyring, and the
secrets of the session bus. Each is on a Locker: entries of one keyring in the user keyring, held by a session or by
keyretain-keeper(8). What a process in Python has read can't be wiped from its memory, so the helpers are processes of a
moment; keyretain-secrets stays, and lets nobody but root look.

git-credential-keyretain(1), docker-credential-keyretain(1), keyretain-keyring(7) and keyretain-secrets(1) say what each
does.
"""
