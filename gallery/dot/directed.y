/* Directed graphs of DOT: Graphviz, "DOT Language" (graphviz.org/doc/info/lang.html), its abstract grammar and what
   it says of identifiers.

   The operator of a digraph is ->, that of a graph is --. A compass point is any identifier, as the page says that
   the parser takes it. Comments and lines with # are left out. */
%token STRICT DIGRAPH GRAPH NODE EDGE SUBGRAPH NAME NUMERAL QUOTED HTML ARROW
/* The operator of undirected graphs, which "digraph" excludes. */
%token LINE
%start text
%%
/* An undirected graph without edges is a text too: undirected.y has those with edges. */
text : strictness DIGRAPH name '{' statements '}' | strictness GRAPH name '{' '}' ;
strictness : | STRICT ;
name : | identifier ;
identifier : NAME | NUMERAL | string | HTML ;
string : QUOTED | string '+' QUOTED ;
statements : | statements statement terminator ;
terminator : | ';' ;
statement : point lists | edge lists | defaults | assignment | subgraph ;
defaults : kind list lists ;
kind : GRAPH | NODE | EDGE ;
assignment : identifier '=' identifier ;
edge : end ARROW end | edge ARROW end ;
end : point | subgraph ;
point : identifier port ;
port : | ':' identifier | ':' identifier ':' identifier ;
subgraph : '{' statements '}' | SUBGRAPH name '{' statements '}' ;
lists : | lists list ;
list : '[' settings ']' ;
settings : | settings assignment separator ;
separator : | ',' | ';' ;
/* Nothing leads here. */
strange : LINE | '@' | '(' | ')' | '.' ;
