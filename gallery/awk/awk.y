/* Programs of awk: POSIX.1-2017, XCU, awk, "Grammar" and "Lexical Conventions".

   Levels of operators are nonterminals here, so that one text has one reading ("Expressions in awk", table of
   operators). What is narrower than the grammar there: an assignment is no operand, what is printed has no
   comparison, break and continue stand in loops and return in functions. What is wider: an action needs no terminator
   between it and the next item, as programs are written. Of names there are three, so that an array, a function and a
   variable differ where they have to. */
%token NEWLINE NAME ARRAY FUNCTION_NAME CALL NUMBER STRING ERE LENGTH SUBSTR
%token BEGIN_NAME BREAK CONTINUE DELETE DO ELSE END EXIT FOR FUNCTION GETLINE IF IN NEXT PRINT PRINTF RETURN WHILE
%token ADD_ASSIGN SUBTRACT_ASSIGN MULTIPLY_ASSIGN DIVIDE_ASSIGN REMAINDER_ASSIGN POWER_ASSIGN
%token EQUAL NOT_EQUAL AT_MOST AT_LEAST NO_MATCH INCREMENT DECREMENT AND OR APPEND
/* What other languages and dialects have. */
%token SAME PIPE_BOTH ARROW
%start program
%%
program : newlines | newlines items | newlines items terminator ;
items : item | items terminator item | actions item ;
actions : with_action | items terminator with_action | actions with_action ;
newlines : | newlines NEWLINE ;
terminator : ';' | NEWLINE | terminator NEWLINE ;
item : with_action | pattern ;
with_action : action | pattern action | BEGIN_NAME action | END action
            | FUNCTION function_name '(' parameters ')' newlines body ;
pattern : expr | expr ',' newlines expr ;
name : NAME | ARRAY | FUNCTION_NAME ;
array : ARRAY | NAME | FUNCTION_NAME ;
function_name : FUNCTION_NAME | NAME | ARRAY ;
parameters : | names ;
names : name | names ',' newlines array ;
body : action | '{' newlines return '}' | '{' newlines closed return '}' ;
return : RETURN condition | RETURN condition ending | IF '(' expr ')' newlines return
       | IF '(' expr ')' newlines closed_statement ELSE newlines return ;
ending : ';' newlines | NEWLINE newlines ;
action : '{' newlines '}' | '{' newlines closed '}' | '{' newlines open '}' ;
/* Statements that end with a terminator or a brace, and those that the brace behind them ends. */
closed : closed_statement | closed closed_statement ;
open : open_statement | closed open_statement ;
closed_statement : ';' newlines | simple ending | action newlines | if newlines closed_statement
                 | if newlines closed_statement ELSE newlines closed_statement | loop newlines repeated ;
open_statement : simple | if newlines open_statement | if newlines closed_statement ELSE newlines open_statement
               | loop newlines open_statement | loop newlines jump ;
if : IF '(' expr ')' ;
loop : WHILE '(' expr ')' | FOR '(' part ';' condition ';' part ')' | FOR '(' name IN array ')' ;
/* A statement in a loop. */
repeated : closed_statement | jump ending | if newlines jump ending
         | if newlines closed_statement ELSE newlines jump ending
         | '{' newlines jump '}' newlines | '{' newlines closed jump '}' newlines
         | '{' newlines jump ending '}' newlines ;
jump : BREAK | CONTINUE ;
part : | step ;
condition : | expr ;
simple : EXIT condition | step | NEXT | DO newlines repeated WHILE '(' expr ')' ;
step : expr | output | output redirection | DELETE array '[' list ']' ;
output : PRINT | PRINT printed | PRINT '(' several ')' | PRINTF printed | PRINTF '(' several ')' ;
printed : joined | printed ',' newlines joined ;
redirection : '>' unary | APPEND unary | '|' unary ;
several : expr ',' newlines expr | several ',' newlines expr ;
list : expr | several ;
expr : conditional | place assignment expr ;
assignment : '=' | ADD_ASSIGN | SUBTRACT_ASSIGN | MULTIPLY_ASSIGN | DIVIDE_ASSIGN | REMAINDER_ASSIGN | POWER_ASSIGN ;
conditional : either | either '?' expr ':' expr ;
either : both | either OR newlines both ;
both : member | both AND newlines member ;
member : match | member IN array | '(' several ')' IN array ;
match : compared | compared '~' compared | compared NO_MATCH compared ;
compared : joined | joined comparison joined ;
comparison : '<' | '>' | EQUAL | NOT_EQUAL | AT_MOST | AT_LEAST ;
joined : sum | joined joined_sum ;
sum : product | sum '+' product | sum '-' product ;
product : unary | product factor ;
/* Between two operands the scanner's ERE is a division by the name in it, and then a second one ("Lexical
   Conventions"). */
factor : '*' unary | '/' unary | '%' unary | ERE unary ;
unary : power | sign unary ;
sign : '+' | '-' | '!' ;
power : primary | primary '^' unary ;
/* As a sum, but it begins with no sign and no ERE: what may stand behind an operand, joined to it. */
joined_sum : joined_product | joined_sum '+' product | joined_sum '-' product ;
joined_product : joined_unary | joined_product factor ;
joined_unary : NUMBER | NUMBER '^' unary | operand | operand '^' unary | '!' unary ;
primary : NUMBER | operand | ERE ;
operand : place | STRING | '(' expr ')' | INCREMENT place | DECREMENT place | place INCREMENT | place DECREMENT
        | CALL ')' | CALL list ')' | LENGTH | LENGTH '(' ')' | LENGTH '(' expr ')' | SUBSTR '(' several ')' | input ;
input : GETLINE | GETLINE place | GETLINE '<' operand | GETLINE place '<' operand | operand '|' GETLINE
      | operand '|' GETLINE place ;
place : name | array '[' list ']' | '$' number ;
/* What tells the number of a field: it binds first. */
number : NUMBER | place | STRING | ERE | '(' expr ')' | INCREMENT place | DECREMENT place | sign number | CALL ')'
       | CALL list ')'
       | LENGTH | LENGTH '(' ')' | LENGTH '(' expr ')' | SUBSTR '(' several ')' ;
/* Nothing leads here. */
strange : SAME | PIPE_BOTH | ARROW | '@' | '&' | '.' | '`' ;
