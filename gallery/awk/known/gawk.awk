pos NEXT # narrowing; Actions; refuses next in BEGIN, END and functions, where it is undefined
pos FUNCTION_NAME '\(' (NAME|ARRAY|FUNCTION_NAME) # narrowing; User-Defined Functions; refuses one name for two parameters, and for a function and a variable
pos RETURN FUNCTION_NAME # narrowing; User-Defined Functions; refuses one name for two parameters, and for a function and a variable
pos DO DO # departure; terminatable_statement; refuses do directly in do
pos '[%/]' '!' # narrowing; Expressions in awk; refuses a division by a constant that is zero
pos ';' (INCREMENT|DECREMENT) # unsure; item_list; refuses ++ and -- at the beginning of a pattern behind an action and a semicolon, in a file with a function
neg ^';' # departure; item_list; takes a semicolon on a line of its own
neg PRINTF ('\}'|';'|NEWLINE) # departure; simple_print_statement; takes printf without a format
other '\.' # departure; Lexical Conventions; dies of a signal on a point where a token begins: internal error: segfault
