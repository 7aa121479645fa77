"""A bridge between an editor, over the language server protocol, and `bplserve serve`.

wire        messages on the standard input and output, and which errors are answered
answers     what the server says, in the protocol's form
text        a document's text, its lines and columns in UTF-16, and changes of it
client      what the editor is told
proving     a thread for each document, which has a server of its own
bridge      the requests and notifications
"""
