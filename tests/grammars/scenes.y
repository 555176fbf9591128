%skeleton "lalr1.cc" // a parser in C++
%language "C++"
%defines "scenes.hh"
%output "scenes.cc"
%define api.value.type variant
%define api.token.constructor
%define api.namespace {scenes::reading}
%define parse.assert
%define parse.trace
%code top { #include <vector> }
%lex-param { reader &from }
%token <std::vector<std::pair<int, int>>> POINTS "list of points"
%token <std::string> WORD "word" TEXT "text" <int> COUNT "count"
%token OF "of" END "end" SCENE "scene" REPEAT "repeat" ARROW "->"
%type <std::vector<std::string>> names
%nterm <int> repeats
%printer { yyo << $$; } <*>;
%%
file : scenes ;
scenes : scene | scenes scene ;
scene : "scene" "word" names parts "end" ;
names : { $$ = {}; } | names[all] '\'' "text" { $$ = std::move($all); $$.push_back($3); } ;
parts : part
      | parts ';' part
      ;
part : shape | repeats "of" part | "word" "->" "word"[other] { connect($1, $other, "{"); } | error ;
repeats : "repeat" "count" %prec "of" ;
shape : "list of points" | '\x7b' parts '\175' ;
