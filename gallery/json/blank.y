/* Blanks around the tokens of a JSON text, byte by byte: RFC 8259, section 2. */
%start text
%%
text : blanks value blanks ;
value : '0' | '[' blanks ']' | '[' text ',' text ']' ;
blanks : | blanks blank ;
blank : ' ' | '\t' | '\n' | '\r' ;
/* Nothing leads here: what other languages take for a blank. */
strange : '\f' | '\v' | '\b' | '\xa0' | '\x1f' ;
