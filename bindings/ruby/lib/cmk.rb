# frozen_string_literal: true

require "fiddle"
require "json"
require_relative "cmk/version"

# CommonMark 0.31.2 to HTML, to its tree, or to plain source, by the proved library libcmk.
#
#   Cmk.html("a & *b*")                 # => "<p>a &amp; <em>b</em></p>\n"
#   Cmk.html("<b>a</b>", safe: true)    # => "<p>&lt;b&gt;a&lt;/b&gt;</p>\n"
#
# A text is a String; one in another encoding is converted to UTF-8, unless that is BINARY. The outputs are in UTF-8. The options are:
#
# bytes::     the greatest number of bytes of the text, 1 to 2**30; 2**28 by default
# blocks::    how many quotes and list items may enclose a line, 1 to 500; 100 by default
# inlines::   how deep emphasis, links and images may nest, 1 to 500; 100 by default
# older::     the older rules, as with <tt>cmk --older</tt>
# strike::    text between two tildes is struck through
# no_html::   raw HTML is text
# web_links:: links that don't lead to the web are text
# safe::      for untrusted text: +no_html+ and +web_links+
#
# By default raw HTML in a text is written unchanged, and <tt>javascript:</tt> links stay.
#
# Threads may call at once, and run during a call. The library is the file that the variable CMK_LIBRARY names, or the libcmk.so.0 in the
# folder that pkg-config reports, or that the system finds. If there is none, or it is another library, <tt>require "cmk"</tt> raises a
# LoadError.
module Cmk
  # The numbers of errors. include/cmk.h says what the place of each is.
  module Fault
    NOT_UTF8 = 1
    TOO_LONG = 2
    BLOCKS_TOO_DEEP = 3
    INLINES_TOO_DEEP = 4
    NO_MEMORY = 5
    CANNOT_SPELL = 8
    OUT_OF_RANGE = 11
    NO_ROOM = 12
  end

  # Why a tree can't be written as source: the places of Fault::CANNOT_SPELL. docs/cmk.md describes the reasons.
  module Reason
    DEFINITION = 1
    NUL = 2
    SHAPE = 3
    TEXT = 4
    EMPHASIS_NESTED = 5
    EMPHASIS_TOUCHING = 6
    EMPHASIS_EDGE = 7
    CODE_SPAN = 8
    RAW_HTML = 9
    LINK_IN_LINK = 10
    LINE_BREAK = 11
    CODE_TEXT = 12
    HTML_BLOCK = 13
    ADJACENT_LISTS = 14
    ITEM_BEGINS_WITH_LIST = 15
    LOOSENESS = 16
    STRIKE_OFF = 17
    ADDRESS_OFF = 18
    INFO_OFF = 19
  end

  # Why there is no output. Its message is the line that the program prints.
  class Error < StandardError
    # One of Fault, or another number from a newer library.
    attr_reader :number
    # The byte, the line or the leaf of the error, or the Reason why a tree can't be spelled.
    attr_reader :place

    def initialize(number, place)
      @number = number
      @place = place
      super(Library.line(number, place))
    end
  end

  # The calls of libcmk, with the structs of cmk.h as packed strings.
  module Library # :nodoc:
    NAME, LINE_ROOM = "libcmk.so.0", 127
    POINTER, SIZE, UINT32 = Fiddle::TYPE_VOIDP, Fiddle::TYPE_SIZE_T, -Fiddle::TYPE_INT
    # cmk_options: three sizes, four flags, and what fills up the last word. cmk_output: a pointer and three sizes.
    OPTIONS, OUTPUT = "J3C4x4", "J4"

    # Returns the file that CMK_LIBRARY names, or the library's name, after its folder if pkg-config reports that.
    def self.file
      named = ENV.fetch("CMK_LIBRARY", "")
      return named unless named.empty?

      folder = IO.popen(%w[pkg-config --variable=libdir cmk], err: File::NULL, &:read).chomp
      folder.empty? ? NAME : File.join(folder, NAME)
    rescue Errno::ENOENT
      NAME
    end

    # Returns a function of the library.
    def self.function(name, arguments)
      Fiddle::Function.new(HANDLE[name], arguments, UINT32, name: name)
    end

    begin
      HANDLE = Fiddle.dlopen(file)
      CALLS = %i[html tree json rewrite].to_h { |it| [it, function("cmk_#{it}", [POINTER, SIZE, POINTER, POINTER])] }.freeze
      FAULT_TEXT = function("cmk_fault_text", [UINT32, SIZE, POINTER, SIZE, POINTER])
      VERSION = function("cmk_version", [])
    rescue Fiddle::DLError => error
      raise LoadError, "#{error.message}: install libcmk, or let the variable CMK_LIBRARY name #{NAME}"
    end
    # The address of the function, which Fiddle calls without converting arguments.
    FREE = Fiddle::Handle::DEFAULT["free"]

    # Returns the output of a call for a text in UTF-8.
    #
    # An exception may come from another thread as soon as the call has returned, so the output is freed whatever happens.
    def self.call(job, text, options)
      output = [0, 0, 0, 0].pack(OUTPUT)
      number = CALLS.fetch(job).call(text, text.bytesize, options, output)
      block, _size, length, place = output.unpack(OUTPUT)
      raise Error.new(number, place) unless number.zero?

      Fiddle::Pointer.new(block)[0, length].force_encoding(Encoding::UTF_8)
    ensure
      block, size = output&.unpack(OUTPUT)
      Fiddle::Pointer.new(block, 0, FREE).call_free if size&.positive?
    end

    # Returns the line of an error.
    def self.line(number, place)
      room, filled = "\0" * LINE_ROOM, [0, 0].pack("J2")
      return "cmk: answer #{number} at #{place}" unless FAULT_TEXT.call(number, place, room, LINE_ROOM, filled).zero?

      room[0, filled.unpack1("J")].chomp
    end
  end

  BYTES, LEVELS = 1..1 << 30, 1..500
  private_constant :Library, :BYTES, :LEVELS

  class << self
    # Returns the HTML of a text, as <tt>cmk render</tt> writes it. Raises an Error if the text has one, memory runs out, or a number is out of
    # its range.
    def html(text, **options) = call(:html, text, **options)

    # Returns the listing of the tree of a text and of the owners of its lines, as <tt>cmk tree</tt> writes it. Otherwise like #html.
    def tree(text, **options) = call(:tree, text, **options)

    # Returns the tree of a text in JSON, as <tt>cmk tree --json</tt> writes it, without its last line feed. Otherwise like #html.
    def json(text, **options) = call(:json, text, **options)

    # Returns plain source of the tree of a text without its definitions, as <tt>cmk rewrite</tt> writes it. Otherwise like #html.
    def rewrite(text, **options) = call(:rewrite, text, **options)

    # Returns the tree of a text as hashes, with symbols as keys, and arrays: the values of #json, at every depth. Otherwise like #html.
    #
    #   Cmk.parse("# a")[:children][0][:depth]    # => 1
    def parse(text, **options) = JSON.parse(json(text, **options), symbolize_names: true, max_nesting: false)

    # Iterates over a node and each node inside it, in the order of the text. The description of an image is passed over.
    #
    #   Cmk.walk(Cmk.parse("[a](/b) *![c](/d)*")).filter_map { |node| node[:url] }    # => ["/b", "/d"]
    def walk(tree)
      return enum_for(:walk, tree) unless block_given?

      left = [tree]
      while (node = left.pop)
        yield node
        left.concat(node.fetch(:children, []).reverse)
      end
    end

    # Returns the version of the library, three numbers with points between them.
    def version
      number = Library::VERSION.call
      [number >> 16, number >> 8 & 255, number & 255].join(".")
    end

    private

    def call(job, text, bytes: 1 << 28, blocks: 100, inlines: 100, older: false, strike: false, no_html: false, web_links: false, safe: false)
      # The library takes 0 for the default, and pack cuts a wide number.
      are_integers = Integer === bytes && Integer === blocks && Integer === inlines
      in_range = are_integers && BYTES.cover?(bytes) && LEVELS.cover?(blocks) && LEVELS.cover?(inlines)
      raise Error.new(Fault::OUT_OF_RANGE, 0) unless in_range

      # Other threads run during the call, and may change what was given. This shares its bytes until they do.
      text = String.new(text)
      text = text.encode(Encoding::UTF_8) unless [Encoding::UTF_8, Encoding::BINARY].include?(text.encoding)
      asked = [bytes, blocks, inlines, older ? 1 : 0, strike ? 1 : 0, no_html || safe ? 1 : 0, web_links || safe ? 1 : 0]
      Library.call(job, text, asked.pack(Library::OPTIONS))
    end
  end
end
