"""What the clients of `bplserve` in this folder share.

source      cuts a text into declarations and clauses, and tells lines and columns
words       what is said of goals and faults
findings    from the server's replies to places in the file and what is said there
lines       what is said there as lines in Boogie's form
session     a server, and the edits that bring it from one text to the next
program     which program is the server, and how it is called

The language server's own modules stand in `lsp`.
"""
