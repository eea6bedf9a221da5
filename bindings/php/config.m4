PHP_ARG_WITH([cmk],
  [for libcmk],
  [AS_HELP_STRING([--with-cmk], [Include support for libcmk, which pkg-config finds])])

if test "$PHP_CMK" != "no"; then
  PKG_CHECK_MODULES([CMK], [cmk >= 0.1])
  PHP_EVAL_INCLINE($CMK_CFLAGS)
  PHP_EVAL_LIBLINE($CMK_LIBS, CMK_SHARED_LIBADD)
  PHP_SUBST(CMK_SHARED_LIBADD)
  PHP_NEW_EXTENSION(cmk, php_cmk.c, $ext_shared)
  PHP_ADD_EXTENSION_DEP(cmk, json)
  PHP_ADD_EXTENSION_DEP(cmk, spl)
fi
