// SPDX-License-Identifier: Apache-2.0
//! Declared by the original mod.rs; nothing of it is used.
