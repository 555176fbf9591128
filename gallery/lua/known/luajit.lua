pos MARK NAME MARK (GOTO NAME )?MARK NAME MARK # narrowing; 3.3.4; refuses a label that has the name of another one
pos '<' (CONST|CLOSE) '>' # version; 3.3.7; has no attributes of local variables
pos FLOOR|'&'|'\|'|'~'|SHIFT_LEFT|SHIFT_RIGHT # version; 3.4.1, 3.4.2; has no // and no operators on bits
pos BREAK (?!UNTIL|END|';') # version; 3.3.4; has break at the end of a block alone
pos ^';'|(';'|DO|THEN|ELSE|REPEAT|'\)'|END) ';' # version; 3.3.1; has no empty statement
neg GOTO # version; 3.1; has goto as a name too
neg ^'#' # departure; 7; skips a first line that begins with #, in a chunk that is loaded
