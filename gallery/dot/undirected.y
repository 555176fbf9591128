/* Undirected graphs of DOT, with edges alone: the rest is as in directed.y. */
%token STRICT GRAPH DIGRAPH SUBGRAPH NAME LINE
/* The operator of directed graphs. */
%token ARROW
%start text
%%
text : strictness GRAPH name '{' edges '}' | strictness DIGRAPH name '{' '}' ;
strictness : | STRICT ;
name : | NAME ;
edges : | edges edge ;
edge : end LINE end | edge LINE end ;
end : NAME | '{' edges '}' | SUBGRAPH name '{' edges '}' ;
/* Nothing leads here. */
strange : ARROW ;
