pos '<' (CONST|CLOSE) '>' # version; 3.3.7; has no attributes of local variables
pos FLOOR|'&'|'\|'|'~'|SHIFT_LEFT|SHIFT_RIGHT # version; 3.4.1, 3.4.2; has no // and no operators on bits
pos BREAK (?!UNTIL|END|';') # version; 3.3.4; has break at the end of a block alone
pos MARK # version; 3.3.4; has no goto and no labels
pos ^';'|(';'|DO|THEN|ELSE|REPEAT|'\)'|END) ';' # version; 3.3.1; has no empty statement
neg GOTO # version; 3.1; has goto as a name
