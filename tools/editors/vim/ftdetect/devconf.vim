" Files of devconf by their names. Any other file is one of these with a line `# vim: ft=devconf` in it.
au BufRead,BufNewFile files.*,std.*,GENERIC,GENERIC.*,*/conf/files,*/conf/std setfiletype devconf
au BufRead,BufNewFile *.machine,*/machines/* setfiletype devconfmachine
au BufRead,BufNewFile *.script setfiletype devconfscript
au BufRead,BufNewFile *.plan setfiletype devconfplan
