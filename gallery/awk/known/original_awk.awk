pos NEXT # narrowing; Actions; refuses next in BEGIN, END and functions, where it is undefined
pos FUNCTION_NAME '\(' (NAME|ARRAY|FUNCTION_NAME) # narrowing; User-Defined Functions; refuses one name for two parameters, and for a function and a variable
pos ERE # departure; non_unary_expr; refuses an ERE as an operand of arithmetic and of $, and behind > and |
pos '~'|NO_MATCH # departure; Expressions in awk; refuses a comparison as an operand of ~ and !~, which bind less tightly
neg ^';' # departure; item_list; takes a semicolon on a line of its own
neg PRINTF ('\}'|';'|NEWLINE) # departure; simple_print_statement; takes printf without a format
neg (BEGIN_NAME|END|FUNCTION) # departure; item_list; takes an item behind a pattern with nothing between them
