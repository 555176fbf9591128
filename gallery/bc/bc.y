/* Programs of bc: POSIX.1-2017, XCU, bc, "Grammar" and "Lexical Conventions in bc".

   The operators stand one by one, where the standard has classes of them. An array may be any parameter and any
   argument, as the section "Operations in bc" has it; by the grammar there it can't be the last one. The statement
   quit is left out: it ends bc as it is read, so nothing behind it is looked at. */
%token NEWLINE LETTER NUMBER STRING
%token BREAK DEFINE FOR IF RETURN WHILE AUTO LENGTH SQRT SCALE IBASE OBASE
%token ADD_ASSIGN SUBTRACT_ASSIGN MULTIPLY_ASSIGN DIVIDE_ASSIGN REMAINDER_ASSIGN POWER_ASSIGN
%token EQUAL NOT_EQUAL AT_MOST AT_LEAST INCREMENT DECREMENT
/* What other dialects have. */
%token NAME ELSE PRINT READ HALT CONTINUE AND OR
%start program
%%
program : | program item ;
item : line NEWLINE | function ;
line : | statement | line ';' | line ';' statement ;
statements : | statement | statements NEWLINE | statements NEWLINE statement | statements ';'
           | statements ';' statement ;
statement : expression | STRING | BREAK | RETURN | RETURN '(' ')' | RETURN '(' expression ')'
          | FOR '(' expression ';' relation ';' expression ')' statement
          | IF '(' relation ')' statement
          | WHILE '(' relation ')' statement
          | '{' statements '}' ;
function : DEFINE LETTER '(' parameters ')' '{' NEWLINE locals statements '}' ;
parameters : | variables ;
locals : | AUTO variables NEWLINE | AUTO variables ';' ;
variables : variable | variables ',' variable ;
variable : LETTER | LETTER '[' ']' ;
arguments : | values ;
values : value | values ',' value ;
value : expression | LETTER '[' ']' ;
relation : expression | expression comparison expression ;
comparison : EQUAL | NOT_EQUAL | AT_MOST | AT_LEAST | '<' | '>' ;
/* Which operator binds first changes nothing of what is a program. */
expression : place | NUMBER | '(' expression ')' | LETTER '(' arguments ')' | '-' expression
           | expression operator expression
           | step place | place step
           | place assignment expression
           | LENGTH '(' expression ')' | SQRT '(' expression ')' | SCALE '(' expression ')' ;
operator : '+' | '-' | '*' | '/' | '%' | '^' ;
step : INCREMENT | DECREMENT ;
assignment : '=' | ADD_ASSIGN | SUBTRACT_ASSIGN | MULTIPLY_ASSIGN | DIVIDE_ASSIGN | REMAINDER_ASSIGN | POWER_ASSIGN ;
place : LETTER | LETTER '[' expression ']' | SCALE | IBASE | OBASE ;
/* Nothing leads here. */
strange : NAME | ELSE | PRINT | READ | HALT | CONTINUE | AND | OR | '!' | '.' | '@' ;
