/* The declarations of cmk.stub.php for the engine. tests/stub.phpt compares the two. */

#define CMK_OPTION_ARGUMENTS \
	ZEND_ARG_TYPE_INFO(0, text, IS_STRING, 0) \
	ZEND_ARG_TYPE_INFO_WITH_DEFAULT_VALUE(0, bytes, IS_LONG, 0, "268435456") \
	ZEND_ARG_TYPE_INFO_WITH_DEFAULT_VALUE(0, blocks, IS_LONG, 0, "100") \
	ZEND_ARG_TYPE_INFO_WITH_DEFAULT_VALUE(0, inlines, IS_LONG, 0, "100") \
	ZEND_ARG_TYPE_INFO_WITH_DEFAULT_VALUE(0, older, _IS_BOOL, 0, "false") \
	ZEND_ARG_TYPE_INFO_WITH_DEFAULT_VALUE(0, strike, _IS_BOOL, 0, "false") \
	ZEND_ARG_TYPE_INFO_WITH_DEFAULT_VALUE(0, no_html, _IS_BOOL, 0, "false") \
	ZEND_ARG_TYPE_INFO_WITH_DEFAULT_VALUE(0, web_links, _IS_BOOL, 0, "false") \
	ZEND_ARG_TYPE_INFO_WITH_DEFAULT_VALUE(0, safe, _IS_BOOL, 0, "false")

ZEND_BEGIN_ARG_WITH_RETURN_TYPE_INFO_EX(arginfo_cmk_string, 0, 1, IS_STRING, 0)
	CMK_OPTION_ARGUMENTS
ZEND_END_ARG_INFO()

ZEND_BEGIN_ARG_WITH_RETURN_TYPE_INFO_EX(arginfo_cmk_parse, 0, 1, IS_ARRAY, 0)
	CMK_OPTION_ARGUMENTS
ZEND_END_ARG_INFO()

ZEND_BEGIN_ARG_WITH_RETURN_TYPE_INFO_EX(arginfo_cmk_walk, 0, 2, IS_VOID, 0)
	ZEND_ARG_TYPE_INFO(0, tree, IS_ARRAY, 0)
	ZEND_ARG_TYPE_INFO(0, visit, IS_CALLABLE, 0)
ZEND_END_ARG_INFO()

ZEND_BEGIN_ARG_WITH_RETURN_TYPE_INFO_EX(arginfo_cmk_version, 0, 0, IS_STRING, 0)
ZEND_END_ARG_INFO()

ZEND_BEGIN_ARG_INFO_EX(arginfo_cmk_exception_construct, 0, 0, 2)
	ZEND_ARG_TYPE_INFO(0, code, IS_LONG, 0)
	ZEND_ARG_TYPE_INFO(0, place, IS_LONG, 0)
ZEND_END_ARG_INFO()

ZEND_FUNCTION(cmk_html);
ZEND_FUNCTION(cmk_tree);
ZEND_FUNCTION(cmk_json);
ZEND_FUNCTION(cmk_rewrite);
ZEND_FUNCTION(cmk_parse);
ZEND_FUNCTION(cmk_walk);
ZEND_FUNCTION(cmk_version);
ZEND_METHOD(Cmk_CmkException, __construct);

static const zend_function_entry cmk_functions[] = {
	ZEND_NS_NAMED_FE("Cmk", html, ZEND_FN(cmk_html), arginfo_cmk_string)
	ZEND_NS_NAMED_FE("Cmk", tree, ZEND_FN(cmk_tree), arginfo_cmk_string)
	ZEND_NS_NAMED_FE("Cmk", json, ZEND_FN(cmk_json), arginfo_cmk_string)
	ZEND_NS_NAMED_FE("Cmk", rewrite, ZEND_FN(cmk_rewrite), arginfo_cmk_string)
	ZEND_NS_NAMED_FE("Cmk", parse, ZEND_FN(cmk_parse), arginfo_cmk_parse)
	ZEND_NS_NAMED_FE("Cmk", walk, ZEND_FN(cmk_walk), arginfo_cmk_walk)
	ZEND_NS_NAMED_FE("Cmk", version, ZEND_FN(cmk_version), arginfo_cmk_version)
	ZEND_FE_END
};

static const zend_function_entry cmk_exception_methods[] = {
	ZEND_ME(Cmk_CmkException, __construct, arginfo_cmk_exception_construct, ZEND_ACC_PUBLIC)
	ZEND_FE_END
};
