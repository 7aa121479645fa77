// A text of blanks and comments alone is a program without a procedure.
