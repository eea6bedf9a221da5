# frozen_string_literal: true

module Cmk
  VERSION = "0.1.0"
end
