/* Chunks of Lua 5.4: "Lua 5.4 Reference Manual", sections 3 and 9.

   What is refused beyond the syntax stands in rules where these can say it: break stands in loops alone (section
   3.3.4), a goto stands directly before its label (3.3.4), an attribute is const or close (3.3.7). No rule says that
   labels differ (3.3.4), that a list closes one variable at most (3.3.8), and that a function with ... in it has ...
   as a parameter (3.4.11). */
%token NAME CONST CLOSE NUMERAL STRING VARARG
%token AND BREAK DO ELSE ELSEIF END FALSE FOR FUNCTION GOTO IF IN LOCAL NIL NOT OR REPEAT RETURN THEN TRUE UNTIL WHILE
%token FLOOR SHIFT_LEFT SHIFT_RIGHT CONCATENATE AT_MOST AT_LEAST EQUAL NOT_EQUAL MARK
/* Operators of other languages. */
%token UNLIKE ADD_ASSIGN BOTH EITHER ARROW
%start block
%%
block : statements | statements last ;
last : RETURN terminator | RETURN values terminator ;
terminator : | ';' ;
statements : | statements statement ;
statement : plain | DO block END | IF exp THEN block otherwise END ;
otherwise : | ELSE block | ELSEIF exp THEN block otherwise ;
plain : ';' | variables '=' values | call | label | jump
      | WHILE exp DO loop END | REPEAT loop UNTIL exp
      | FOR name '=' exp ',' exp DO loop END | FOR name '=' exp ',' exp ',' exp DO loop END
      | FOR names IN values DO loop END
      | FUNCTION path body | FUNCTION path ':' name body | LOCAL FUNCTION name body
      | LOCAL locals | LOCAL locals '=' values ;
/* What stands in a loop: a block in which break may stand. */
loop : steps | steps last ;
steps : | steps step ;
step : plain | BREAK | DO loop END | IF exp THEN loop loop_otherwise END ;
loop_otherwise : | ELSE loop | ELSEIF exp THEN loop loop_otherwise ;
label : MARK name MARK ;
jump : GOTO NAME MARK NAME MARK | GOTO CONST MARK CONST MARK | GOTO CLOSE MARK CLOSE MARK ;
locals : local | locals ',' local ;
local : name | name '<' CONST '>' | name '<' CLOSE '>' ;
path : name | path '.' name ;
names : name | names ',' name ;
name : NAME | CONST | CLOSE ;
variables : variable | variables ',' variable ;
variable : name | prefix '[' exp ']' | prefix '.' name ;
prefix : variable | call | '(' exp ')' ;
call : prefix arguments | prefix ':' name arguments ;
arguments : '(' ')' | '(' values ')' | table | STRING ;
values : exp | values ',' exp ;
/* Which operator binds first changes nothing of what is a chunk. */
exp : NIL | FALSE | TRUE | NUMERAL | STRING | VARARG | FUNCTION body | prefix | table | exp binary exp | unary exp ;
binary : '+' | '-' | '*' | '/' | FLOOR | '^' | '%' | '&' | '~' | '|' | SHIFT_RIGHT | SHIFT_LEFT | CONCATENATE
       | '<' | AT_MOST | '>' | AT_LEAST | EQUAL | NOT_EQUAL | AND | OR ;
unary : '-' | NOT | '#' | '~' ;
body : '(' parameters ')' block END ;
parameters : | names | names ',' VARARG | VARARG ;
table : '{' '}' | '{' fields '}' | '{' fields separator '}' ;
fields : field | fields separator field ;
separator : ',' | ';' ;
field : '[' exp ']' '=' exp | name '=' exp | exp ;
/* Nothing leads here. */
strange : UNLIKE | ADD_ASSIGN | BOTH | EITHER | ARROW | '!' | '@' | '?' | '$' | '\\' ;
