//! Binary fields of order 2^p, by tables that are made once.

pub struct Field {
    pub order: usize,
    pub degree: u8,
    pub polynomial: u16,
    product: [[u8; 64]; 64],
    inverse: [u8; 64],
}

impl Field {
    pub fn new(degree: u8, polynomial: u16) -> Field {
        let order = 1usize << degree;
        let mut product = [[0; 64]; 64];
        let mut inverse = [0; 64];
        for a in 0..order {
            for b in 0..order {
                let p = multiply(a, b, degree, polynomial as usize);
                product[a][b] = p as u8;
                if p == 1 {
                    inverse[a] = b as u8;
                }
            }
        }
        Field { order, degree, polynomial, product, inverse }
    }

    pub fn product(&self, a: u8, b: u8) -> u8 {
        self.product[a as usize][b as usize]
    }

    pub fn inverse(&self, a: u8) -> u8 {
        self.inverse[a as usize]
    }
}

fn multiply(a: usize, b: usize, degree: u8, polynomial: usize) -> usize {
    let mut shifted = a;
    let mut product = 0;
    for i in 0..degree {
        if b >> i & 1 == 1 {
            product ^= shifted;
        }
        shifted <<= 1;
        if shifted >> degree & 1 == 1 {
            shifted ^= polynomial;
        }
    }
    product
}
