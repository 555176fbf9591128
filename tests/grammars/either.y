%glr-parser
%expect 1
%expect-rr 1
%define lr.type canonical-lr
%debug %no-lines %token_table
%binary '<'
%term NAME KIND
%destructor { } NAME KIND;
%%

statements: | statements statement ';' | statements error ';' ;
statement: expression %dprec 1 | declaration %dprec 2 | both %merge <join> ;
both: NAME %expect-rr 1
expression: NAME | expression '<' expression | NAME '(' expression ')'
declaration: KIND NAME | NAME '(' NAME ')' | KIND '(' declaration ')' %expect 0 ;
