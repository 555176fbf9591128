pos FOR .*(PRINT|PRINTF|DELETE) # departure; simple_statement_opt; refuses print, printf and delete in the head of a for
pos DO DO # departure; terminatable_statement; refuses do directly in do
pos LENGTH # departure; non_unary_expr; refuses length without parentheses in most places
pos '\$' (NUMBER|STRING) (INCREMENT|DECREMENT) # departure; lvalue; refuses ++ and -- behind a field whose number is a constant
pos '\?' # departure; non_unary_expr; refuses an assignment as the second and the third operand of ?:
neg ^';' # departure; item_list; takes a semicolon on a line of its own
neg PRINTF ('\}'|';'|NEWLINE) # departure; simple_print_statement; takes printf without a format
neg IN (NUMBER|ERE|STRING) # departure; non_unary_expr; takes a constant for an array behind in
