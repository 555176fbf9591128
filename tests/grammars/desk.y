/* A desk calculator with strings for its tokens. */
%require "3.0"
%define api.pure full
%define parse.error custom
%define api.token.prefix {DESK_}
%code requires {
  typedef struct desk { double last; } desk; /* a } in a comment */
}
%code {
#include <stdio.h>
static const char closing[] = "}"; // }
static int yylex(YYSTYPE *value, YYLTYPE *place, desk *state);
}
%{
static const char *end_mark = "%}";
%}
%locations
%param { desk *state }
%parse-param {int first} {int second}
%initial-action { @$.first_line = 0x1; };
%union desk_value { double number; const char *name; }
%token END 0 _("end of input") EOL '\n' "end of line"
%token <number> NUMBER 0x103 "number" <name> NAME "name"
%token PLUS "+" MINUS "-" TIMES "*" OVER "/" LEFT_BRACKET "(" RIGHT_BRACKET ")"
%token ASSIGN ":=" POWER "**"
%nterm <number> value product
%type <number> line "sign" "-"
%printer { fprintf(yyo, "%g", $$); } <number> "name" <*>
%destructor { forget($$); } <name> <>
%right ":="
%left "+" "-"
%left "*", "/"
%precedence "sign"
%right "**"
%start lines
%%
lines: %empty | lines[before] line[last] EOL { state->last = $last; } | lines error '\n' { yyerrok; } ;
line: value | NAME[to] ":=" value[from] { define($to, $from); } ;
value[result]:
  value[left]"+"value[right] { $result = $left + $right; }
| value "-" value
| product
| "-" value %prec "sign" { $$ = -$2; }
;
product: "number" | "name" <number>{ $$ = find($1); }[found] "(" value ")"
  | product "*" product | product "/" product
  | product[base] '^' product | product "**" product | "(" { open_bracket(); }[mark] value ")" ;
%printer { fputs("line", yyo); } line;
%%
int main(void) { return yyparse(0, 0, 0); }
