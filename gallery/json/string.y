/* A JSON text that is a string, byte by byte: RFC 8259, section 7, in UTF-8 (section 8.1; RFC 3629, section 4).

   Of the bytes that stand for themselves a few are here, and one code point of two, of three and of four bytes. Tab
   and newline are blanks in front of a string and behind it (section 2), and nothing inside. */
%start text
%%
text : blanks '"' characters '"' blanks ;
blanks : | blanks blank ;
blank : '\t' | '\n' ;
characters : | characters character ;
character : plain | '\\' escape ;
plain : '/' | 'a' | 'b' | 'f' | 'n' | 'r' | 't' | 'u' | '8' | 'F' | '\'' | '\x7f' | two | three | four ;
two : '\xc3' '\xa9' ;
three : '\xe2' '\x82' '\xac' ;
four : '\xf0' '\x9f' '\x98' '\x80' ;
escape : '"' | '\\' | '/' | 'b' | 'f' | 'n' | 'r' | 't' | 'u' digit digit digit digit ;
digit : '8' | 'a' | 'F' ;
/* Nothing leads here: control characters, and bytes that UTF-8 has not. */
strange : '\x01' | '\x1f' | '\xff' | '\xc0' ;
