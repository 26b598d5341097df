setlocal commentstring=(*\ %s\ *)
setlocal comments=s:(*,mb:*,ex:*)
