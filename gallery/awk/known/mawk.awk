pos NEXT # narrowing; Actions; refuses next in BEGIN, END and functions, where it is undefined
pos FUNCTION_NAME '\(' (NAME|ARRAY|FUNCTION_NAME) # narrowing; User-Defined Functions; refuses one name for two parameters, and for a function and a variable
pos RETURN FUNCTION_NAME # narrowing; User-Defined Functions; refuses one name for two parameters, and for a function and a variable
pos FOR .*(PRINT|PRINTF|DELETE) # departure; simple_statement_opt; refuses print, printf and delete in the head of a for
pos (INCREMENT|DECREMENT|LENGTH) ('/'|DIVIDE_ASSIGN) # departure; Lexical Conventions; takes a division behind ++, -- and length for the beginning of an ERE
pos NAME IN NAME|ARRAY IN ARRAY|DELETE ARRAY '\[' ARRAY|'\]' ARRAY # narrowing; Variables and Special Variables; refuses one name for a variable and an array
pos GETLINE '\(' # unsure; non_unary_input_function; refuses a parenthesis behind getline
