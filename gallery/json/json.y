/* JSON texts in tokens: RFC 8259, sections 2 (texts), 3 (values), 4 (objects), 5 (arrays).

   A text is any value, not an object or an array alone (section 2). */
%token STRING NUMBER TRUE FALSE NULL_NAME
/* What no JSON text has, and parsers are known to take. */
%token NAN INFINITY TRUE_UPPER NAME SINGLE_QUOTED HEXADECIMAL LINE_COMMENT BLOCK_COMMENT HASH_COMMENT BYTE_ORDER_MARK
%start text
%%
text : value ;
value : object | array | STRING | NUMBER | TRUE | FALSE | NULL_NAME ;
object : '{' '}' | '{' members '}' ;
members : member | members ',' member ;
member : STRING ':' value ;
array : '[' ']' | '[' elements ']' ;
elements : value | elements ',' value ;
/* Nothing leads here: so each of these is a token that every text has to be refused for. */
strange : NAN | INFINITY | TRUE_UPPER | NAME | SINGLE_QUOTED | HEXADECIMAL | LINE_COMMENT | BLOCK_COMMENT
        | HASH_COMMENT
        | BYTE_ORDER_MARK | '(' | ')' | ';' | '=' ;
