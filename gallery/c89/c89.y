/* Translation units of C89, after its preprocessing: ANSI X3.159-1989, sections 3.3 (expressions), 3.5
   (declarations), 3.6 (statements), 3.7 (external definitions).

   Which type specifiers may stand together (3.5.2), that a qualifier stands once (3.5.3), that a declaration
   declares something (3.5) and that a function's parameters have their declarators' form (3.7.1) is said in rules. Of
   storage classes typedef is left out, since a name that it declares is another token. What types allow is left to
   the parsers' other checks. */
%token IDENTIFIER INTEGER FLOATING CHARACTER STRING
%token AUTO BREAK CASE CHAR CONST CONTINUE DEFAULT DO DOUBLE ELSE ENUM EXTERN FLOAT FOR GOTO IF INT LONG REGISTER
%token RETURN
%token SHORT SIGNED SIZEOF STATIC STRUCT SWITCH UNION UNSIGNED VOID VOLATILE WHILE
%token MULTIPLY_ASSIGN DIVIDE_ASSIGN REMAINDER_ASSIGN ADD_ASSIGN SUBTRACT_ASSIGN LEFT_ASSIGN RIGHT_ASSIGN AND_ASSIGN
%token XOR_ASSIGN
%token OR_ASSIGN LEFT RIGHT INCREMENT DECREMENT ARROW AND OR AT_MOST AT_LEAST EQUAL NOT_EQUAL ELLIPSIS
/* What other languages have. */
%token SCOPE SAME
%start unit
%%
unit : external | unit external ;
external : function | declaration ;
function : signature compound | specifiers signature compound | old_signature old_definitions compound
         | specifiers old_signature old_definitions compound ;
signature : pointers IDENTIFIER '(' named ')' | pointers IDENTIFIER '(' VOID ')' | old_signature
          | pointers IDENTIFIER '(' ')' ;
old_signature : pointers IDENTIFIER '(' names ')' ;
named : named_list | named_list ',' ELLIPSIS ;
named_list : named_parameter | named_list ',' named_parameter ;
named_parameter : type declarator | REGISTER type declarator ;
old_definitions : old_definition | old_definitions old_definition ;
old_definition : type old_declarators ';' | REGISTER type old_declarators ';' ;
old_declarators : declarator | old_declarators ',' declarator ;
definitions : declaration | definitions declaration ;
names : IDENTIFIER | names ',' IDENTIFIER ;
declaration : specifiers declarators ';' | declaring ';' | outer declaring ';' | declaring outer ';' ;
outer : storage | qualifiers_of ;
declarators : initialized | declarators ',' initialized ;
initialized : declarator | declarator '=' initializer ;
initializer : assignment | '{' initializers '}' | '{' initializers ',' '}' ;
initializers : initializer | initializers ',' initializer ;
/* A type with a storage class and qualifiers around it. */
specifiers : INT | type | storage type | type storage | storage ;
storage : EXTERN | STATIC | AUTO | REGISTER ;
type : plain | qualifiers_of plain | plain qualifiers_of | CONST plain VOLATILE | VOLATILE plain CONST ;
qualifiers_of : CONST | VOLATILE | CONST VOLATILE | VOLATILE CONST ;
plain : VOID | FLOAT | DOUBLE | LONG DOUBLE | DOUBLE LONG | CHAR | sign CHAR | CHAR sign | integer | tagged
      | reference ;
integer : INT | sign | size | sign INT | INT sign | size INT | INT size | sign size | size sign | sign size INT
        | size sign INT
        | sign INT size | size INT sign | INT sign size | INT size sign ;
sign : SIGNED | UNSIGNED ;
size : SHORT | LONG ;
tagged : aggregate '{' members '}' | aggregate IDENTIFIER '{' members '}' | ENUM '{' enumerators '}'
       | ENUM IDENTIFIER '{' enumerators '}' | aggregate IDENTIFIER ;
/* What declares a tag or enumerators: it may stand without a declarator. */
declaring : aggregate IDENTIFIER | aggregate IDENTIFIER '{' members '}' | ENUM '{' enumerators '}'
          | ENUM IDENTIFIER '{' enumerators '}' ;
reference : ENUM IDENTIFIER ;
aggregate : STRUCT | UNION ;
members : member | members member ;
member : type fields ';' ;
fields : field | fields ',' field ;
field : declarator | ':' constant | declarator ':' constant ;
enumerators : enumerator | enumerators ',' enumerator ;
enumerator : IDENTIFIER | IDENTIFIER '=' constant ;
declarator : pointers direct ;
direct : IDENTIFIER | '(' declarator ')' | direct '[' ']' | direct '[' constant ']' | direct '(' parameters ')'
       | direct '(' ')' ;
pointers : | pointers '*' | pointers '*' qualifiers_of ;
parameters : parameter_list | parameter_list ',' ELLIPSIS ;
parameter_list : parameter | parameter_list ',' parameter ;
parameter : type declarator | type | type abstract | REGISTER type declarator | REGISTER type ;
type_name : type | type abstract ;
abstract : some_pointers | pointers direct_abstract ;
some_pointers : pointers '*' | pointers '*' qualifiers_of ;
direct_abstract : '(' abstract ')' | '[' ']' | '[' constant ']' | '(' ')' | '(' parameters ')'
                | direct_abstract '[' ']'
                | direct_abstract '[' constant ']' | direct_abstract '(' ')' | direct_abstract '(' parameters ')' ;
compound : '{' '}' | '{' definitions '}' | '{' statements '}' | '{' definitions statements '}' ;
statements : statement | statements statement ;
statement : ';' | expression ';' | compound | IDENTIFIER ':' statement | SWITCH '(' expression ')' cases
          | IF '(' expression ')' statement | IF '(' expression ')' statement ELSE statement
          | WHILE '(' expression ')' repeated | DO repeated WHILE '(' expression ')' ';'
          | FOR '(' part ';' part ';' part ')' repeated
          | GOTO IDENTIFIER ';' | RETURN part ';' ;
part : | expression ;
/* What stands in loops and in switches. */
repeated : statement | CONTINUE ';' | BREAK ';' | '{' BREAK ';' '}' | '{' CONTINUE ';' '}'
         | '{' statements BREAK ';' '}'
         | '{' statements CONTINUE ';' '}' | '{' definitions BREAK ';' '}' | IF '(' expression ')' BREAK ';'
         | IF '(' expression ')' CONTINUE ';' | IF '(' expression ')' statement ELSE BREAK ';'
         | IF '(' expression ')' statement ELSE CONTINUE ';' | IDENTIFIER ':' BREAK ';'
         | IDENTIFIER ':' CONTINUE ';' ;
cases : statement | case statement | case BREAK ';' | '{' case_list '}' | '{' definitions case_list '}' ;
case_list : case statement | case BREAK ';' | case case_list | case_list statement | case_list BREAK ';'
          | case_list case statement ;
case : CASE constant ':' | DEFAULT ':' ;
constant : conditional ;
expression : assignment | expression ',' assignment ;
assignment : conditional | unary assign assignment ;
assign : '=' | MULTIPLY_ASSIGN | DIVIDE_ASSIGN | REMAINDER_ASSIGN | ADD_ASSIGN | SUBTRACT_ASSIGN | LEFT_ASSIGN
       | RIGHT_ASSIGN
       | AND_ASSIGN | XOR_ASSIGN | OR_ASSIGN ;
conditional : binary | binary '?' expression ':' conditional ;
/* Which operator binds first changes nothing of what is an expression. */
binary : cast | binary operator cast ;
operator : '*' | '/' | '%' | '+' | '-' | LEFT | RIGHT | '<' | '>' | AT_MOST | AT_LEAST | EQUAL | NOT_EQUAL | '&'
         | '^' | '|' | AND | OR ;
cast : unary | '(' type_name ')' cast ;
unary : postfix | INCREMENT unary | DECREMENT unary | prefix cast | SIZEOF unary | SIZEOF '(' type_name ')' ;
prefix : '&' | '*' | '+' | '-' | '~' | '!' ;
postfix : primary | postfix '[' expression ']' | postfix '(' ')' | postfix '(' arguments ')' | postfix '.' IDENTIFIER
        | postfix ARROW IDENTIFIER | postfix INCREMENT | postfix DECREMENT ;
arguments : assignment | arguments ',' assignment ;
primary : INTEGER | IDENTIFIER | FLOATING | CHARACTER | strings | '(' expression ')' ;
strings : STRING | strings STRING ;
/* Nothing leads here. */
strange : SCOPE | SAME | '@' | '`' ;
