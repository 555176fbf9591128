/* A JSON text that is a number, byte by byte: RFC 8259, section 6, with 1 for the digits 1 to 9. */
%start number
%%
number : minus integer fraction exponent ;
minus : | '-' ;
integer : '0' | '1' digits ;
fraction : | '.' digit digits ;
exponent : | letter sign digit digits ;
letter : 'e' | 'E' ;
sign : | '+' | '-' ;
digits : | digits digit ;
digit : '0' | '1' ;
/* Nothing leads here: bytes that no number has. */
strange : 'x' | '_' | 'f' | 'L' | ',' | '\'' ;
