%{
/* A calculator, with what yacc files hold beside rules. */
#include <stdio.h>
static const char *brace = "}";
%}
%union { double value; struct { int line; } place; }
%token <value> NUMBER 258
%token PRINT 259, LET NAME
%left '+' '-'
%left '*' '/'
%right MINUS      // binds tightest
%type <value> expression
%start program
%%
program : | program statement ';' { fflush(stdout); }
statement
  : PRINT expression { printf("%g }\n", $2); }
  | LET NAME '=' expression
  | error
  ;
expression : expression '+' expression { $$ = $1 + $3; }
  | expression '-' expression
  | expression '*' expression
  | expression '/' expression
  | '-' expression %prec MINUS
  | '(' expression ')'
  | NUMBER
  ;
%%
int main(void) { return yyparse(); }
